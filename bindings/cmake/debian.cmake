# The Debian packages libluzhanem0 and libluzhanem-dev. Configure with -DCMAKE_INSTALL_PREFIX=/usr, build, run cpack.
set(debian ${CMAKE_CURRENT_SOURCE_DIR}/debian)
foreach(component runtime dev)
    set(package libluzhanem0)
    if(component STREQUAL dev)
        set(package libluzhanem-dev)
    endif()
    set(documents ${CMAKE_INSTALL_DATAROOTDIR}/doc/${package})
    install(FILES ${debian}/copyright DESTINATION ${documents} COMPONENT ${component} EXCLUDE_FROM_ALL)
    install(FILES ${CMAKE_CURRENT_BINARY_DIR}/changelog.gz DESTINATION ${documents} COMPONENT ${component} EXCLUDE_FROM_ALL)
endforeach()
find_program(gzip gzip)
if(gzip)
    add_custom_command(OUTPUT changelog.gz DEPENDS ${debian}/changelog
        COMMAND ${gzip} -9 -n -c ${debian}/changelog >changelog.gz)
    add_custom_target(changelog ALL DEPENDS changelog.gz)
endif()

set(CPACK_GENERATOR DEB)
set(CPACK_DEB_COMPONENT_INSTALL ON)
set(CPACK_COMPONENTS_ALL runtime dev)
set(CPACK_STRIP_FILES ON)
set(CPACK_INSTALL_DEFAULT_DIRECTORY_PERMISSIONS OWNER_READ OWNER_WRITE OWNER_EXECUTE GROUP_READ GROUP_EXECUTE
    WORLD_READ WORLD_EXECUTE)
set(CPACK_PACKAGE_CONTACT "Luzhanem maintainers <maintainers@users.noreply.luzhanem.example>")
set(CPACK_PACKAGE_VERSION ${PROJECT_VERSION})
set(CPACK_DEBIAN_FILE_NAME DEB-DEFAULT)
set(CPACK_DEBIAN_PACKAGE_CONTROL_STRICT_PERMISSION ON)
set(CPACK_DEBIAN_RUNTIME_PACKAGE_NAME libluzhanem0)
set(CPACK_DEBIAN_RUNTIME_PACKAGE_SECTION libs)
set(CPACK_DEBIAN_RUNTIME_PACKAGE_SHLIBDEPS ON)
set(CPACK_DEBIAN_PACKAGE_GENERATE_SHLIBS ON)
set(CPACK_DEBIAN_PACKAGE_GENERATE_SHLIBS_POLICY ">=")
# A trigger instead of the scripts with ldconfig that cpack would add: a name that no file has keeps it from that.
set(CPACK_DEBIAN_RUNTIME_PACKAGE_CONTROL_EXTRA ${debian}/triggers ${debian}/none/postinst ${debian}/none/postrm)
set(CPACK_COMPONENT_RUNTIME_DESCRIPTION "transactional file store for a playout server
Eight files of up to 4,096 bytes, sixteen shared descriptors and eight
transactions in one block of memory, under optimistic concurrency control.

This package has the shared library.")
set(CPACK_DEBIAN_DEV_PACKAGE_NAME libluzhanem-dev)
set(CPACK_DEBIAN_DEV_PACKAGE_SECTION libdevel)
set(CPACK_DEBIAN_DEV_PACKAGE_DEPENDS "libluzhanem0 (= ${PROJECT_VERSION})")
set(CPACK_COMPONENT_DEV_DESCRIPTION "transactional file store for a playout server, development files
Eight files of up to 4,096 bytes, sixteen shared descriptors and eight
transactions in one block of memory, under optimistic concurrency control.

This package has the headers for C and C++, the static library, and the
files for pkg-config and CMake.")
include(CPack)
