/* Eight threads make all calls at once, each in an order of its own, so that yeses meet noes. What each call hands out has to be
 * what it hands out to a thread alone. Their stacks have 64 KB beside what the C library takes. */
#include "calls.h"
#include <pthread.h>

enum { THREADS = 8, ROUNDS = 200 };

static Handed alone[COUNT];

static void *run(void *number) {
    Handed *to = malloc(sizeof *to);
    long wrong = 0;
    for (long k = 0; k < ROUNDS * COUNT; k++) {
        int place = (int)((k + 5 * (long)number) % COUNT);
        clear(to);
        wrong += make(place, to) != statuses[place] || memcmp(to, &alone[place], sizeof *to) != 0;
    }
    free(to);
    return (void *)wrong;
}

int main(void) {
    for (int k = 0; k < COUNT; k++) {
        clear(&alone[k]);
        check_that(names[k], make(k, &alone[k]) == statuses[k]);
    }
    pthread_t threads[THREADS];
    pthread_attr_t attributes;
    pthread_attr_init(&attributes);
    pthread_attr_setstacksize(&attributes, 80 * 1024);
    for (long k = 0; k < THREADS; k++) {
        check_that("a thread starts", pthread_create(&threads[k], &attributes, run, (void *)k) == 0);
    }
    for (int k = 0; k < THREADS; k++) {
        void *wrong;
        pthread_join(threads[k], &wrong);
        check_that("a thread beside others answers as one alone", wrong == 0);
    }
    return count();
}
