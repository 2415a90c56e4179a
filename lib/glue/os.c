/* What the program asks of the system beyond the C library, as the kit's c/libos_c.a gives it on x86-64 Linux: its
 * arguments, its environment, and errno. */
#include <errno.h>
#include <stdint.h>
#include <stdlib.h>

enum { MISSING = -1, NO_ROOM = -2 };

extern char **environ;
static int count;
static char **arguments;

/* glibc hands the arguments to constructors too. */
__attribute__((constructor)) static void keep(int given_count, char **given) {
    count = given_count;
    arguments = given;
}

/* The length of a text after it is copied, if it is there and fits. */
static int64_t copied(const char *from, uint8_t *to, uint64_t room) {
    uint64_t n = 0;
    if (!from) return MISSING;
    for (; from[n]; n++) {
        if (n == room) return NO_ROOM;
        to[n] = (uint8_t)from[n];
    }
    return (int64_t)n;
}

uint64_t rattle_arg_count(void) {
    return (uint64_t)count;
}

int64_t rattle_arg(uint64_t at, uint8_t *to, uint64_t room) {
    return copied(at < (uint64_t)count ? arguments[at] : NULL, to, room);
}

int64_t rattle_env(const char *name, uint8_t *to, uint64_t room) {
    return copied(getenv(name), to, room);
}

int64_t rattle_env_at(uint64_t at, uint8_t *to, uint64_t room) {
    char **it = environ;
    if (!it) return MISSING;
    while (*it && at--) it++;
    return copied(*it, to, room);
}

int32_t rattle_errno(void) {
    return errno;
}

void rattle_set_errno(int32_t number) {
    errno = number;
}
