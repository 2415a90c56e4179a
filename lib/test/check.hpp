/* The same for C++: what a call answers, and what it throws. */
#ifndef CHECK_HPP
#define CHECK_HPP

#include "check.h"

#include <string>

__extension__ typedef __int128 Wide;
__extension__ typedef unsigned __int128 UnsignedWide;

inline void is(const char *name, const std::string &got, const std::string &wanted) {
    check_that(name, got == wanted);
    if (got != wanted) printf("%s: wanted '%s', got '%s'\n", name, wanted.c_str(), got.c_str());
}

struct Ignored {
    template <class Thrown>
    void operator()(const Thrown &) const {}
};

/* A call throws this, and says so; without what is said, in any words. What was thrown is handed on. */
template <class Thrown, class Call, class Then = Ignored>
void throws(const char *name, const Call &call, const std::string &what = "", const Then &then = Then()) {
    try {
        (void)call();
        is(name, "nothing was thrown", what);
    } catch (const Thrown &it) {
        is(name, what.empty() ? what : it.what(), what);
        then(it);
    } catch (const std::exception &it) {
        is(name, "another exception: " + std::string(it.what()), what);
    }
}

#endif
