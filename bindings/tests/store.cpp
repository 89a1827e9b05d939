// The classes of luzhanem.hpp, and the rows of "Error behaviour" that C++ can express.
#include "luzhanem.hpp"

#include <cstdio>
#include <cstring>
#include <string>
#include <thread>
#include <type_traits>
#include <vector>

static int passed, failed;
static void holds(bool right, int line, const char *text) {
    if (right) passed++;
    else failed++, std::printf("store.cpp:%d: %s\n", line, text);
}
#define HOLDS(x) holds(x, __LINE__, #x)

static void transactions() {
    static_assert(std::is_nothrow_move_constructible_v<luzhanem::store>);
    static_assert(!std::is_copy_constructible_v<luzhanem::store>);
    static_assert(!std::is_copy_constructible_v<luzhanem::transaction>);
    luzhanem::store s;
    {
        luzhanem::transaction t(s, 0);
        HOLDS(bool(t.write(0, "hello")));
        HOLDS(t.commit(14 * 60).value() == 0);
        HOLDS(t.commit(14 * 60).code() == LUZHANEM_E_NOT_OPEN);
    }
    HOLDS(s.file(0) == "hello" && s.offset(0).value() == 5 && s.length(0).value() == 5 && s.file_of(9).value() == 1);
    {
        luzhanem::transaction t(s, 0);
        HOLDS(bool(t.write(0, " again")));
        HOLDS(s.state(0).value() == 1);
    } // aborted
    HOLDS(s.state(0).value() == 0 && s.file(0) == "hello");
    {
        luzhanem::transaction reader(s, 1), writer(s, 2);
        char byte;
        HOLDS(reader.read(0, &byte, 1).value() == 0);
        HOLDS(bool(writer.write(0, "!")));
        HOLDS(writer.commit(0).value() == 1 << 1);
        HOLDS(reader.commit(0).code() == LUZHANEM_E_STALE);
        HOLDS(bool(s.begin(1))); // it has ended: its destructor leaves the new one
    }
    HOLDS(s.state(1).value() == 1 && bool(s.abort(1)));
}

static void refusals() {
    luzhanem::store s;
    HOLDS(s.begin(8).code() == LUZHANEM_E_NO_SUCH_TRANSACTION && s.begin(std::size_t(-1)).code() == -3);
    HOLDS(std::string(s.begin(8).name()) == "NO_SUCH_TRANSACTION" && std::strlen(s.begin(8).message()) > 5);
    HOLDS(s.write(0, 0, {}).code() == LUZHANEM_E_NOT_OPEN);
    HOLDS(s.read(0, 0, nullptr, 1).code() == LUZHANEM_E_BUFFER_LENGTH);
    HOLDS(s.file(8).empty() && s.length(8).code() == LUZHANEM_E_NO_SUCH_TARGET);
    try {
        luzhanem::transaction a(s, 3), b(s, 3);
        HOLDS(false);
    } catch (const luzhanem::refused &e) {
        HOLDS(e.code() == LUZHANEM_E_ALREADY_OPEN && std::string(e.what()) == luzhanem_strerror(-5));
    }
    HOLDS(s.state(3).value() == 0);
    try {
        luzhanem::store bad(std::array<std::uint8_t, 16>{ 8 });
        HOLDS(false);
    } catch (const luzhanem::refused &e) {
        HOLDS(e.code() == LUZHANEM_E_NO_SUCH_FILE);
    }
    std::memset(s.get(), 0xFF, sizeof *s.get());
    HOLDS(s.begin(0).code() == LUZHANEM_E_RECORD_RANGE && s.check().code() == -2 && s.file(0).empty());
}

static void copies() {
    luzhanem::store s;
    HOLDS(s.begin(0) && s.write(0, 0, "hello") && s.commit(0, 0) && s.begin(4));
    auto copy = s.clone();
    HOLDS(copy.state(4).value() == 1 && copy.abort(4) && copy.undo());
    HOLDS(copy.file(0).empty() && s.file(0) == "hello");
    luzhanem::store moved = std::move(copy);
    HOLDS(bool(moved.begin(1)));
    auto image = std::make_unique<luzhanem_image>();
    HOLDS(bool(s.save(*image)) && bool(moved.load(*image)));
    HOLDS(moved.file(0) == "hello" && moved.state(4).value() == 0 && moved.undo() && moved.file(0).empty());
    image->numbers_[0] = 9;
    HOLDS(moved.load(*image).code() == LUZHANEM_E_BUFFER_LENGTH);
}

// Every call, for a log.
static void make_calls(luzhanem::store &s) {
    static const std::uint8_t list[1] = { 0 };
    luzhanem_place at[4];
    luzhanem_order order;
    char bytes[8];
    luzhanem_scripts q = {};
    q.count = 2, q.counts[0] = q.counts[1] = 1;
    q.calls[0][0] = { LUZHANEM_WRITE, 0, 0, 3 };
    q.calls[1][0] = { LUZHANEM_GET_FILE_POINTER, 0, 0, 0 };
    (void)s.begin(0), (void)s.write(0, 0, "hello"), (void)s.write(0, 0, "\n"), (void)s.begin(0);
    (void)s.get_file_pointer(0, 0), (void)s.seek(0, 0, 2), (void)s.read(0, 0, bytes, 8), (void)s.places(0, 0, at, 4);
    (void)s.best_order(list, 1, 0, 1, order), (void)s.commit(0, 842), (void)s.set_window(2, 480, 1320), (void)s.undo();
    (void)s.begin(1), (void)s.abort(1), (void)s.dispatch(q, "abc", bytes, 8, 842);
}

static const char expected[] =
    "B0\n= ok\nW0 0 hello\n= ok\nX0 0 0a\n= ok\nB0\n= 5\nP0 0\n= ok 6\nS0 0 2\n= ok\nR0 0 8 8\n= ok 6c6c6f0a\n"
    "L0 0 16\n= ok 0 6\nO0 1 0\n= ok 1 0 1 0\nC0 842\n= ok 0\nH2 480 1320\n= ok\nU\n= ok\nB1\n= ok\nA1\n= ok\n"
    "B0\n= ok\nB1\n= ok\nW0 0 abc\n= ok\nP1 0\n= ok 0\nC0 842\n= ok 2\nC1 842\n= 13\n"
    "B1\n= ok\nP1 0\n= ok 3\nC1 842\n= ok 0\n";

static void recording() {
    std::string log;
    luzhanem::store s([&](std::string_view line) { return log += line, true; });
    HOLDS(s.recording());
    make_calls(s);
    HOLDS(log == std::string("V1\nF0 1 2 3 4 5 6 7 0 1 2 3 4 5 6 7\n= ok\n") + expected);
    if (failed) std::printf("%s", log.c_str());

    luzhanem::store plain, standby; // answers are the same without a recorder, and from the log
    make_calls(plain);
    HOLDS(!std::memcmp(plain.get(), s.get(), sizeof *s.get()));
    for (std::size_t at = 0; at < log.size(); at = log.find('\n', at) + 1)
        (void)standby.replay_line(std::string_view(log).substr(at, log.find('\n', at) - at));
    HOLDS(standby.file(0) == s.file(0) && s.file(0) == "abc");

    std::string later; // from now on, with a transaction open
    HOLDS(bool(plain.begin(5)));
    const std::string block(plain.block());
    HOLDS(block.size() == LUZHANEM_BLOCK_BYTES);
    plain.record([&](std::string_view line) { return later += line, later.size() < 40; });
    make_calls(plain);
    HOLDS(later.substr(0, 3) == "V1\n" && later.size() >= 40 && later.size() < 60);
    HOLDS(!plain.recording()); // the sink refused a line

    luzhanem::store loaded([](std::string_view) { return true; });
    auto image = std::make_unique<luzhanem_image>();
    HOLDS(loaded.recording() && s.save(*image) && loaded.load(*image) && !loaded.recording());

    std::FILE *file = std::tmpfile();
    luzhanem::store day(luzhanem::to_file(file));
    make_calls(day);
    std::string text(4096, 0);
    std::rewind(file);
    text.resize(std::fread(&text[0], 1, text.size(), file));
    HOLDS(text == log);
    std::fclose(file);
}

static void threads() {
    luzhanem::shared_store<> both;
    std::vector<std::thread> tasks;
    for (std::size_t t = 0; t < 8; t++)
        tasks.emplace_back([&both, t] {
            for (int i = 0; i < 50; i++) {
                (void)both.lock()->begin(t);
                (void)both.lock()->write(t, 0, "0123456789");
                (void)both.lock()->commit(t, 0);
            }
        });
    for (auto &t : tasks) t.join();
    HOLDS(both.lock()->file(0).size() == 4000);

    int lines = 0; // put under the lock of the store
    luzhanem::shared_store<> recorded(luzhanem::store([&lines](std::string_view) { return ++lines > 0; }));
    for (std::size_t t = 0; t < 2; t++)
        tasks[t] = std::thread([&recorded, t] {
            for (int i = 0; i < 1000; i++) (void)recorded.lock()->begin(t);
        });
    for (std::size_t t = 0; t < 2; t++) tasks[t].join();
    HOLDS(lines == 3 + 2 * 2 * 1000);
}

int main() {
    transactions();
    refusals();
    copies();
    recording();
    threads();
    std::printf("%d passed, %d failed\n", passed, failed);
    return failed != 0;
}
