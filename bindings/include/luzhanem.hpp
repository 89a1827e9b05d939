// luzhanem.hpp: the store of luzhanem.h for C++17, header only. No call throws but answer::value().
//
//     luzhanem::store s;                                     // owns its memory: one allocation
//     {
//         luzhanem::transaction t(s, 0);                     // begun; aborted at the end unless it has ended
//         (void)t.write(3, "14:02 jingle\n");
//         luzhanem::answer r = t.commit(14 * 60 + 2);
//         if (!r) std::cerr << r.message() << '\n';          // r.code() == LUZHANEM_E_STALE: begin it again
//     }
//     luzhanem::shared_store<> both;                         // with a lock, for several threads
//     (void)both.lock()->begin(1);                           // held to the end of the statement
//
//     luzhanem::store day(luzhanem::to_file(log));           // every call and its answer go to the open FILE *log
//
// luzhanem.h says what each call does, which refusals it has and what to do after them.
#ifndef LUZHANEM_HPP
#define LUZHANEM_HPP

#include "luzhanem.h"

#include <array>
#include <cstdio>
#include <exception>
#include <functional>
#include <memory>
#include <mutex>
#include <string_view>
#include <utility>

namespace luzhanem {

// A refusal, thrown by answer::value() and by constructors.
class refused : public std::exception {
public:
    explicit refused(int code) noexcept : code_(code) {}
    int code() const noexcept { return code_; }
    const char *what() const noexcept override { return ::luzhanem_strerror(code_); }

private:
    int code_;
};

// What a call answers: a result of 0 or more, or a refusal.
class [[nodiscard]] answer {
public:
    constexpr explicit answer(int code) noexcept : code_(code) {}
    constexpr explicit operator bool() const noexcept { return code_ >= 0; }
    constexpr int code() const noexcept { return code_; }
    int value() const {
        if (code_ < 0) throw refused(code_);
        return code_;
    }
    const char *message() const noexcept { return ::luzhanem_strerror(code_); }
    const char *name() const noexcept { return ::luzhanem_errname(code_); }

private:
    int code_;
};

// Takes a line of a log, with its end, and says whether it could. It must not throw.
using sink = std::function<bool(std::string_view)>;

// A sink that appends to an open file, which stays the caller's.
inline sink to_file(std::FILE *file) {
    return [file](std::string_view line) { return std::fwrite(line.data(), 1, line.size(), file) == line.size(); };
}

// A store in memory of its own; movable. Not for several threads at once: see shared_store.
class store {
public:
    store() : store(sink()) {}
    // Descriptor d belongs to file file_of[d]; throws refused.
    explicit store(const std::array<std::uint8_t, 16> &file_of, sink to = sink())
        : store(file_of.data(), std::move(to)) {}
    // Records every call, from the first on.
    explicit store(sink to) : store(nullptr, std::move(to)) {}

    // A copy, with what is open; it is not recorded.
    store clone() const {
        store copy;
        *copy.s_ = *s_;
        return copy;
    }
    ::luzhanem_store *get() noexcept { return s_.get(); }
    const ::luzhanem_store *get() const noexcept { return s_.get(); }

    // Records from now on; an empty sink ends it. `replay` needs block() as it is now to start from.
    void record(sink to) {
        recorder_.reset();
        if (!to) return;
        recorder_ = std::make_unique<recorder>(std::move(to));
        recorder_->put("V1\n");
    }
    // False too when the sink has failed: recording has then stopped.
    bool recording() const noexcept { return recorder_ && recorder_->works; }
    // The saved block that the program `replay` starts from.
    std::string_view block() const noexcept {
        return { reinterpret_cast<const char *>(s_.get()), LUZHANEM_BLOCK_BYTES };
    }

    answer fresh(const std::uint8_t *file_of = nullptr) noexcept {
        asks([=](char *out, std::size_t room) { return ::luzhanem_line_fresh(out, room, file_of); });
        return done(::luzhanem_fresh(s_.get(), sizeof *s_, file_of));
    }
    answer begin(std::size_t t) noexcept {
        asks([=](char *out, std::size_t room) { return ::luzhanem_line_begin(out, room, t); });
        return done(::luzhanem_begin(s_.get(), t));
    }
    answer abort(std::size_t t) noexcept {
        asks([=](char *out, std::size_t room) { return ::luzhanem_line_abort(out, room, t); });
        return done(::luzhanem_abort(s_.get(), t));
    }
    answer seek(std::size_t t, std::size_t d, std::size_t offset) noexcept {
        asks([=](char *out, std::size_t room) { return ::luzhanem_line_seek(out, room, t, d, offset); });
        return done(::luzhanem_seek(s_.get(), t, d, offset));
    }
    answer write(std::size_t t, std::size_t d, std::string_view bytes) noexcept {
        asks([=](char *out, std::size_t room) {
            return ::luzhanem_line_write(out, room, t, d, bytes.data(), bytes.size());
        });
        return done(::luzhanem_write(s_.get(), t, d, bytes.data(), bytes.size()));
    }
    answer get_file_pointer(std::size_t t, std::size_t d) noexcept {
        asks([=](char *out, std::size_t room) { return ::luzhanem_line_get_file_pointer(out, room, t, d); });
        return number(::luzhanem_get_file_pointer(s_.get(), t, d));
    }
    answer read(std::size_t t, std::size_t d, void *bytes, std::size_t n) noexcept {
        asks([=](char *out, std::size_t room) { return ::luzhanem_line_read(out, room, t, d, n); });
        const int r = ::luzhanem_read(s_.get(), t, d, bytes, n);
        asks([=](char *out, std::size_t room) { return ::luzhanem_line_given(out, room, r, bytes, n); });
        return answer(r);
    }
    answer commit(std::size_t t, std::size_t minute) noexcept {
        asks([=](char *out, std::size_t room) { return ::luzhanem_line_commit(out, room, t, minute); });
        return number(::luzhanem_commit(s_.get(), t, minute));
    }
    answer places(std::size_t t, std::size_t f, luzhanem_place *list, std::size_t n) noexcept {
        asks([=](char *out, std::size_t room) { return ::luzhanem_line_places(out, room, t, f, n); });
        const int r = ::luzhanem_places(s_.get(), t, f, list, n);
        asks([=](char *out, std::size_t room) { return ::luzhanem_line_listed(out, room, r, list, n); });
        return answer(r);
    }
    answer set_window(std::size_t f, std::size_t start, std::size_t end) noexcept {
        asks([=](char *out, std::size_t room) { return ::luzhanem_line_set_window(out, room, f, start, end); });
        return done(::luzhanem_set_window(s_.get(), f, start, end));
    }
    answer undo() noexcept {
        asks([](char *out, std::size_t room) { return ::luzhanem_line_undo(out, room); });
        return done(::luzhanem_undo(s_.get()));
    }
    // While recording, the dispatcher's calls are made one by one, so that each has its line.
    answer dispatch(const luzhanem_scripts &scripts, std::string_view data, void *reader, std::size_t reader_bytes,
                    std::size_t minute, int *ended = nullptr) noexcept {
        if (recording())
            return answer(::luzhanem_dispatch_recorded(s_.get(), &scripts, data.data(), data.size(), reader,
                                                       reader_bytes, minute, ended, &recorder_->lines));
        return answer(
            ::luzhanem_dispatch(s_.get(), &scripts, data.data(), data.size(), reader, reader_bytes, minute, ended));
    }
    answer best_order(const std::uint8_t *transactions, std::size_t n, std::size_t minute, std::size_t budget,
                      luzhanem_order &found) noexcept {
        asks([=](char *out, std::size_t room) {
            return ::luzhanem_line_best_order(out, room, transactions, n, minute, budget);
        });
        const int r = ::luzhanem_best_order(s_.get(), transactions, n, minute, budget, &found);
        asks([&](char *out, std::size_t room) { return ::luzhanem_line_ordered(out, room, r, &found, n); });
        return answer(r);
    }

    answer offset(std::size_t d) const noexcept { return answer(::luzhanem_offset(s_.get(), d)); }
    answer file_of(std::size_t d) const noexcept { return answer(::luzhanem_file_of(s_.get(), d)); }
    answer length(std::size_t f) const noexcept { return answer(::luzhanem_length(s_.get(), f)); }
    answer state(std::size_t t) const noexcept { return answer(::luzhanem_state(s_.get(), t)); }
    answer check() const noexcept { return answer(::luzhanem_check(s_.get())); }
    // What is committed of file f; empty if f is above 7. It shows the store's memory, which the next call changes.
    std::string_view file(std::size_t f) const noexcept {
        const int n = ::luzhanem_length(s_.get(), f);
        if (n < 0 || n > LUZHANEM_FILE_BYTES) return {};
        return { reinterpret_cast<const char *>(::luzhanem_file(s_.get(), f)), static_cast<std::size_t>(n) };
    }
    answer save(luzhanem_image &out) const noexcept { return answer(::luzhanem_save(s_.get(), &out)); }
    // Loads an image. A log has no line for that, so recording ends; record() starts it again.
    answer load(const luzhanem_image &image) noexcept {
        recorder_.reset();
        return answer(::luzhanem_load(s_.get(), &image));
    }
    // Makes the call of a line of a log, given without its end. Recording ends, as with load().
    answer replay_line(std::string_view line) noexcept {
        recorder_.reset();
        return answer(::luzhanem_replay_line(s_.get(), line.data(), line.size()));
    }

private:
    struct recorder {
        explicit recorder(sink s) : to(std::move(s)) {
            lines.put = [](void *context, const char *line, std::size_t n) {
                static_cast<recorder *>(context)->put({ line, n });
            };
            lines.context = this;
        }
        void put(std::string_view line) { works = works && to(line); }
        sink to;
        bool works = true;
        luzhanem_recorder lines;
    };

    store(const std::uint8_t *file_of, sink to) : s_(new ::luzhanem_store()) {
        record(std::move(to));
        fresh(file_of).value();
    }
    // Puts the line that `line` renders, if the store records.
    template <class Line> void asks(Line line) noexcept {
        if (!recording()) return;
        const int n = line(recorder_->lines.line_, sizeof recorder_->lines.line_);
        if (n > 0) recorder_->put({ recorder_->lines.line_, static_cast<std::size_t>(n) });
    }
    answer done(int r) noexcept {
        asks([r](char *out, std::size_t room) { return ::luzhanem_line_done(out, room, r); });
        return answer(r);
    }
    answer number(int r) noexcept {
        asks([r](char *out, std::size_t room) { return ::luzhanem_line_number(out, room, r); });
        return answer(r);
    }

    std::unique_ptr<::luzhanem_store> s_;
    std::unique_ptr<recorder> recorder_;
};

// One open transaction of a store; aborted at the end of its life unless it has ended. The constructor throws
// refused if it cannot begin.
class transaction {
public:
    transaction(store &s, std::size_t t) : s_(&s), t_(t) { s.begin(t).value(); }
    transaction(const transaction &) = delete;
    transaction &operator=(const transaction &) = delete;
    ~transaction() {
        if (open_) (void)s_->abort(t_);
    }
    answer seek(std::size_t d, std::size_t offset) noexcept { return s_->seek(t_, d, offset); }
    answer write(std::size_t d, std::string_view bytes) noexcept { return s_->write(t_, d, bytes); }
    answer get_file_pointer(std::size_t d) noexcept { return s_->get_file_pointer(t_, d); }
    answer read(std::size_t d, void *out, std::size_t n) noexcept { return s_->read(t_, d, out, n); }
    answer commit(std::size_t minute) noexcept {
        const answer r = s_->commit(t_, minute);
        if (r || r.code() == LUZHANEM_E_STALE) open_ = false;
        return r;
    }

private:
    store *s_;
    std::size_t t_;
    bool open_ = true;
};

// A store with its lock; what lock() answers holds it.
template <class Mutex = std::mutex> class shared_store {
public:
    shared_store() = default;
    explicit shared_store(store s) : store_(std::move(s)) {}

    class held {
    public:
        explicit held(shared_store &s) : lock_(s.mutex_), s_(&s.store_) {}
        store *operator->() const noexcept { return s_; }
        store &operator*() const noexcept { return *s_; }

    private:
        std::unique_lock<Mutex> lock_;
        store *s_;
    };
    held lock() { return held(*this); }

private:
    Mutex mutex_;
    store store_;
};

} // namespace luzhanem

#endif
