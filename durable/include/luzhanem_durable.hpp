// luzhanem_durable.hpp: the calls of luzhanem_durable.h for C++17, header only.
//
//     luzhanem::shared_store<> s;
//     luzhanem::durable d(s, "sqlite:/var/lib/playout/one.db", "channel one", LUZHANEM_DURABLE_CREATE);
//     ...
//     luzhanem::answer r = s.lock()->commit(t, minute);
//     if (r && d.sync()) ...                                  // granted, and there after a crash
//
// luzhanem_durable.h says what each call does.
#ifndef LUZHANEM_DURABLE_HPP
#define LUZHANEM_DURABLE_HPP

#include "luzhanem.hpp"
#include "luzhanem_durable.h"

#include <optional>
#include <stdexcept>
#include <string>

namespace luzhanem {

// Thrown where a channel cannot be opened or loaded; what() has the database's own words.
class durable_error : public std::runtime_error {
public:
    explicit durable_error(int code) : std::runtime_error(::luzhanem_durable_error()), code_(code) {}
    int code() const noexcept { return code_; }
    const char *name() const noexcept { return ::luzhanem_durable_errname(code_); }

private:
    int code_;
};

// A channel that is open for saves; closed at the end of its life. The store has to outlive it, and is not
// moved meanwhile.
template <class Mutex = std::mutex> class durable {
public:
    durable(shared_store<Mutex> &s, const char *url, const char *channel, int how = 0) : store_(&s) {
        const ::luzhanem_durable_lock lock = { take, give, this };
        // A log has no line for what open loads, so recording ends, as with store::load.
        s.lock()->record(sink());
        const int r = ::luzhanem_durable_open(&d_, url, channel, how, s.lock()->get(), &lock);
        if (r < 0) throw durable_error(r);
    }
    durable(const durable &) = delete;
    durable &operator=(const durable &) = delete;
    ~durable() { ::luzhanem_durable_close(d_); }

    // True when everything committed before the call is on disk. Call it without the store's lock.
    answer sync() noexcept { return answer(::luzhanem_durable_sync(d_)); }
    // A commit and its sync: the commit's answer where it is refused, or where both are granted; else the
    // sync's. The commit is then granted in memory all the same.
    answer commit(std::size_t t, std::size_t minute) noexcept {
        const answer granted = store_->lock()->commit(t, minute);
        if (!granted) return granted;
        const answer saved = sync();
        return saved ? granted : saved;
    }
    ::luzhanem_durable *get() noexcept { return d_; }
    // The words of this thread's last error.
    static const char *error() noexcept { return ::luzhanem_durable_error(); }

private:
    using held = typename shared_store<Mutex>::held;
    static void take(void *context) {
        auto *d = static_cast<durable *>(context);
        held lock(*d->store_);
        d->held_.emplace(std::move(lock));
    }
    static void give(void *context) {
        std::optional<held> lock;
        lock.swap(static_cast<durable *>(context)->held_);
    }

    shared_store<Mutex> *store_;
    std::optional<held> held_; // of the one thread that saves
    ::luzhanem_durable *d_ = nullptr;
};
template <class Mutex> durable(shared_store<Mutex> &, const char *, const char *, int) -> durable<Mutex>;

// Reads a channel without taking it, into a store that one thread uses; answers its generation.
inline std::int64_t load_channel(store &s, const char *url, const char *channel) {
    std::int64_t generation = 0;
    s.record(sink());
    const int r = ::luzhanem_durable_load(url, channel, s.get(), &generation);
    if (r < 0) throw durable_error(r);
    return generation;
}

} // namespace luzhanem

#endif
