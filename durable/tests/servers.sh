# PostgreSQL servers on loopback, for tests: to be sourced. A server is named by its number, 1 or 2; the second can be a
# synchronous standby of the first, or the first of the second. They lie in the folder $servers, run under an unprivileged user,
# and listen on ports that were free. servers_end stops them and removes the folder.

bin=
port=()
servers=
if [ "$(id -u)" = 0 ]; then as() { (cd / && setpriv --reuid=postgres --regid=postgres --init-groups "$@"); }; else as() { (cd / && "$@"); }; fi

# Finds PostgreSQL; where something is missing answers 1, and `why` says what.
servers_find() {
    bin=$(find /usr/lib/postgresql -maxdepth 3 -name initdb -printf '%h\n' 2>/dev/null | sort -V | tail -n 1)
    if [ -z "$bin" ] && command -v pg_config >/dev/null; then bin=$(pg_config --bindir); fi
    why="no PostgreSQL server on this machine"
    [ -n "$bin" ] && [ -x "$bin/initdb" ] || return 1
    why="no user postgres on this machine, and this is root"
    [ "$(id -u)" != 0 ] || id postgres >/dev/null 2>&1 || return 1
    why="the library was built without PostgreSQL"
    nm -g "${DURABLE_BUILD:?}/libluzhanem_durable.a" 2>/dev/null | grep -q ' luzhanem_postgresql_$' || return 1
    servers=$(mktemp -d "${TMPDIR:-/tmp}/luzhanem-servers.XXXXXX") || return 1
    [ "$(id -u)" != 0 ] || chown postgres "$servers"
    chmod 755 "$servers"
    user=$(as id -un)
}

# Two ports on which nobody listens.
free_port() {
    local p
    for _ in $(seq 50); do
        p=$((20000 + RANDOM % 12000))
        [ "$p" != "${port[1]:-}" ] && ! (: <"/dev/tcp/127.0.0.1/$p") 2>/dev/null && echo $p && return
    done
}

pid_of() { head -n 1 "$servers/$1/postmaster.pid"; }
url_of() { echo "postgresql://$user@127.0.0.1:${port[$1]}/postgres?connect_timeout=5&sslmode=disable&gssencmode=disable"; }
url_of_both() { echo "postgresql://$user@127.0.0.1:${port[1]},127.0.0.1:${port[2]}/postgres?target_session_attrs=read-write&connect_timeout=2"; }
sql_on() { PGOPTIONS=--client-min-messages=warning "$bin/psql" -XAtq "$(url_of "$1")" -c "$2"; }

server_settings() {
    printf '%s\n' "port = ${port[$1]}" "unix_socket_directories = '$servers'" "listen_addresses = '127.0.0.1'" "shared_buffers = 16MB" \
        "max_connections = 40" "max_wal_size = 128MB" "min_wal_size = 32MB" "wal_level = replica" "max_wal_senders = 4" "hot_standby = on" \
        "log_min_messages = warning" "cluster_name = 's$1'" "synchronous_standby_names = ''" "autovacuum = off" "jit = off" \
        >"$servers/settings"
    cp "$servers/settings" "$servers/$1/mine.conf" && chmod 644 "$servers/$1/mine.conf"
}
server_start() { as "$bin/pg_ctl" -D "$servers/$1" -l "$servers/$1.log" -w -t 60 start >/dev/null; }
server_stop() { [ ! -f "$servers/$1/postmaster.pid" ] || as "$bin/pg_ctl" -D "$servers/$1" -m immediate -w stop >/dev/null 2>&1 || true; }

# The postmaster and its children end at once, by their ids, as with a machine that is gone.
server_kill() {
    local p
    p=$(pid_of "$1")
    # shellcheck disable=SC2046
    kill -9 "$p" $(ps -o pid= --ppid "$p")
    while kill -0 "$p" 2>/dev/null; do sleep 0.02; done
}

# The first server; a second folder is made from it by standby_of.
server_first() {
    port[1]=$(free_port)
    port[2]=$(free_port)
    as "$bin/initdb" -D "$servers/1" -A trust --no-sync -k -U "$user" --locale=C --encoding=UTF8 >"$servers/initdb.log" 2>&1 || return 1
    echo "include 'mine.conf'" >>"$servers/1/postgresql.conf"
    server_settings 1
    server_start 1
}

# standby_of ONE OTHER: OTHER becomes a synchronous standby of ONE.
standby_of() {
    rm -rf "${servers:?}/$2"
    as "$bin/pg_basebackup" -D "$servers/$2" -R -c fast -X stream --no-sync -d "$(url_of "$1")" || return 1
    server_settings "$2"
    server_start "$2" || return 1
    sql_on "$1" "ALTER SYSTEM SET synchronous_standby_names = 's$2'" && sql_on "$1" "SELECT pg_reload_conf()" >/dev/null || return 1
    for _ in $(seq 200); do
        [ "$(sql_on "$1" "SELECT count(*) FROM pg_stat_replication WHERE sync_state = 'sync'")" = 1 ] && return
        sleep 0.05
    done
    return 1
}

promote() {
    as "$bin/pg_ctl" -D "$servers/$1" -w promote >/dev/null
    sql_on "$1" "ALTER SYSTEM RESET synchronous_standby_names" && sql_on "$1" "SELECT pg_reload_conf()" >/dev/null
}

servers_end() {
    [ -n "$servers" ] || return 0
    server_stop 1
    server_stop 2
    rm -rf "$servers"
    servers=
}
