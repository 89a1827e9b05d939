// durable_class URL: the class of luzhanem_durable.hpp, with two threads.
#include "luzhanem_durable.hpp"

#include <cstdio>
#include <string>
#include <thread>

static int wrong;
static void check(bool good, const char *name) {
    wrong += !good;
    std::printf("%s %s\n", good ? "ok" : "not ok", name);
}

template <class S> static int append(S &s, luzhanem::durable<> &d, std::size_t t, int count) {
    int saved = 0;
    for (int i = 0; i < count; i++) {
        (void)s.lock()->begin(t);
        (void)s.lock()->write(t, t, "16 bytes of text");
        saved += d.commit(t, 0) ? 1 : 0;
    }
    return saved;
}

int main(int n, char **v) {
    if (n != 2) return 2;
    luzhanem::shared_store<> first, second;
    int saved[2] = { 0, 0 };
    {
        luzhanem::durable d(first, v[1], "class", LUZHANEM_DURABLE_CREATE);
        std::thread one([&] { saved[0] = append(first, d, 0, 20); });
        std::thread two([&] { saved[1] = append(first, d, 1, 20); });
        one.join();
        two.join();
    }
    luzhanem::store seen;
    const std::int64_t generation = luzhanem::load_channel(seen, v[1], "class");
    check(saved[0] == 20 && saved[1] == 20 && seen.length(0).value() == 320 && seen.length(1).value() == 320,
          "class: commit saves");
    check(generation > 1, "class: load_channel answers the generation");
    luzhanem::durable d(second, v[1], "class");
    check(second.lock()->length(0).value() == 320, "class: it opens with what was saved");
    {
        luzhanem::durable later(first, v[1], "class");
        check(d.sync().code() == LUZHANEM_DURABLE_E_FENCED && std::string(d.error()) != "", "class: fenced");
        const luzhanem::answer refused = later.commit(3, 0);
        check(refused.code() == LUZHANEM_E_NOT_OPEN, "class: a refused commit is the store's refusal");
    }
    try {
        luzhanem::durable none(second, v[1], "none");
        check(false, "class: no such channel throws");
    } catch (const luzhanem::durable_error &e) {
        check(e.code() == LUZHANEM_DURABLE_E_NO_CHANNEL && std::string(e.name()) == "NO_CHANNEL",
              "class: no such channel throws");
    }
    return wrong != 0;
}
