/* Each growth of memory is refused in turn: then a call answers DIMACS_NO_MEMORY and hands out nothing, or does without
 * it what it does with it; and what it took is given back. Linked with --wrap for malloc, realloc and free. */
#include "calls.h"

void *__real_malloc(size_t size);
void *__real_realloc(void *old, size_t size);
void __real_free(void *it);

static long asked, refused, held;

void *__wrap_malloc(size_t size) {
    if (++asked == refused) {
        return NULL;
    }
    void *it = __real_malloc(size);
    held += it != NULL;
    return it;
}

void *__wrap_realloc(void *old, size_t size) {
    if (++asked == refused) {
        return NULL;
    }
    void *it = __real_realloc(old, size);
    held += old == NULL && it != NULL;
    return it;
}

void __wrap_free(void *it) {
    held -= it != NULL;
    __real_free(it);
}

/* Whether nothing is handed out. */
static int is_nothing(const Handed *it) {
    Handed nothing;
    clear(&nothing);
    nothing.needed = 0;
    nothing.shown_needed = it->shown_needed ? 99 : 0;
    nothing.better_needed = it->better_needed ? 99 : 0;
    nothing.marks_needed = it->marks_needed ? 99 : 0;
    return !memcmp(it, &nothing, sizeof nothing);
}

/* Whether the command's own line is handed out, as it has to be before any that explains it. */
static int has_line(const Handed *it, const Handed *whole) {
    size_t length = (size_t)((const char *)memchr(whole->out, '\n', sizeof whole->out) - (const char *)whole->out) + 1;
    return it->needed >= length && !memcmp(it->out, whole->out, length);
}

/* Calls with nothing refused, and then with each growth refused in turn until a call meets no refusal. Spreading
   hands out no line if it has a solution to show. */
static void refuse_each(int k) {
    Handed whole, to;
    refused = 0;
    clear(&whole);
    check_that(names[k], make(k, &whole) == statuses[k] && (whole.needed > 0) == (strncmp(names[k], "spread", 6) != 0));
    int is_explained = !strncmp(names[k], "explain", 7);
    for (refused = 1;; refused++) {
        asked = held = 0;
        clear(&to);
        uint32_t status = make(k, &to);
        int is_same = status == statuses[k] && !memcmp(&to, &whole, sizeof to);
        int is_none = status == DIMACS_NO_MEMORY && is_nothing(&to);
        int is_line = is_explained && status == statuses[k] && has_line(&to, &whole);
        check_that(names[k], is_same || ((is_none || is_line) && asked >= refused));
        check_that("what was taken is given back", held == 0);
        if (asked < refused) {
            check_that("with no growth refused it is done", is_same);
            return;
        }
    }
}

int main(void) {
    for (int k = 0; k < COUNT; k++) {
        refuse_each(k);
    }
    return count();
}
