/* The calls over texts, beside what the tests of dimacs.hpp and of the crate show: what isn't read, what names no kind
 * or no command, and texts of any bytes. Contracts have the rest. */
#include "texts.h"
#include "check.h"
#include "dimacs.h"

#define TEXT(s) (const uint8_t *)(s), strlen(s)

static uint8_t out[600], shown[400], solved[400];
static size_t needed, shown_needed, solved_needed;
#define OUT out, sizeof out, &needed
#define SHOWN shown, sizeof shown, &shown_needed
#define SOLVED solved, sizeof solved, &solved_needed

static uint32_t judge(uint32_t kind, const char *instance, const char *claim, const char *certificate) {
    return dimacs_judge(kind, TEXT(instance), TEXT(claim), TEXT(certificate), OUT);
}

static uint32_t certify(uint32_t kind, const char *instance, const char *claim) {
    return dimacs_certify(kind, TEXT(instance), TEXT(claim), OUT, SHOWN);
}

static uint32_t solve(uint32_t kind, const char *instance, const char *queries) {
    return dimacs_solve(kind, TEXT(instance), TEXT(queries), DIMACS_LIMIT, OUT, SOLVED, SHOWN);
}

/* A case: a call, its status, its line, and the certificate that it hands out, if it hands out one. */
#define CASE(name, call, wanted, line, certificate)                             \
    do {                                                                        \
        needed = 99, shown_needed = 0;                                          \
        CHECK(name, call, wanted, line);                                        \
        check(name, wanted, shown, shown_needed, wanted, certificate);          \
    } while (0)

static void kinds(void) {
    CASE("a claim that isn't read", judge(DIMACS_INFEASIBLE, surplus, "?", both), 0, "v infeasible\n", "");
    CASE("no claim is certified", certify(DIMACS_INFEASIBLE, surplus, "?"), 0, "v infeasible\n", both);
    CASE("no query is solved", solve(DIMACS_MAX, max, "?"), 0, "v max 6\n", cut);
    CASE("sets aren't solved for", solve(DIMACS_INFEASIBLE, surplus, ""), 2, "", "");
    CASE("no kind of text", dimacs_convert(9, TEXT(max), OUT), 2, "", "");
}

static void keeps_to_the_room(void) {
    uint32_t status = dimacs_show(DIMACS_TEXT_MAX, TEXT(max), NULL, 0, &needed);
    check_that("no room, and null", status == 0 && needed == 14);
    memset(out, '#', sizeof out);
    status = dimacs_solve(DIMACS_MIN, TEXT(surplus), NULL, 0, 9, out, 5, &needed, NULL, 0, &solved_needed, shown, 3,
                          &shown_needed);
    check_that("three rooms", status == 0 && needed == 13 && solved_needed == 0 && shown_needed == 18);
    check_that("the front of each", !memcmp(out, "v inf#", 6) && !memcmp(shown, "p c", 3));
    memset(out, '#', sizeof out);
    status = judge(9, max, flow, cut);
    check_that("nothing is written if it is misused", status == 2 && needed == 0 && out[0] == '#');
}

/* Texts in memory that is exactly theirs, so that a read beyond would be seen; with no UTF-8 and with 0 bytes. */
static void reads_any_bytes(void) {
    static const struct {
        const char *name, *text;
        size_t length;
        const char *line;
    } texts[] = {
        {"null", NULL, 0, "x instance 1 0 ProblemMissing\n"},
        {"no UTF-8", "p max 3 3\xff\xfe\n", 12, "x instance 1 4 BadNumber\n"},
        {"a 0 byte", "p max\0 3 3\n", 11, "x instance 1 2 BadWord\n"},
        {"a letter alone", "p", 1, "x instance 1 0 FieldCount\n"},
    };
    for (size_t k = 0; k < sizeof texts / sizeof *texts; k++) {
        uint8_t *exact = texts[k].text ? malloc(texts[k].length) : NULL;
        if (exact) {
            memcpy(exact, texts[k].text, texts[k].length);
        }
        CHECK(texts[k].name, dimacs_show(DIMACS_TEXT_MAX, exact, texts[k].length, OUT), 1, texts[k].line);
        free(exact);
    }
}

#define COMMAND(form, words, claim) \
    dimacs_command(form, WORDS(words), 0, TEXT(max), TEXT(claim), TEXT(cut), OUT, SOLVED, SHOWN)
#define COMMANDED(words, claim, wanted, output) \
    needed = 99; \
    CHECK(words, COMMAND(DIMACS_FILES, words, claim), wanted, output)

/* What explains an answer is whole as tests/explain.py has it. */
static void explains(void) {
    COMMANDED("explain\0judge-max\0I\0my S\0C", "s 4\nf 1 2 4\n", 1,
              "x node 2 Balance\n"
              "0 leaves node 2, 4 enters it: 4 too little leaves\n"
              "entries out of it: 0\n"
              "entries into it: 1\n"
              "  my S:2: f 1 2 4\n");
    COMMANDED("explain\0show\0max\0I", "?", 0, "i max 4 5 1 4\n");
    COMMANDED("show\0max\0I", "?", 0, "i max 4 5 1 4\n");
    COMMANDED("explain\0show\0max\0\xff", "?", 2, "");
    COMMANDED("explain\0spread-max\0I\0S\0O", flow, 0, "");
    COMMANDED("explain\0solve-max\0I\0S\0C\0--limit\0" "0", flow, 5,
              "g limit\n"
              "the limit, 0, counts flows, the flow 0 first and each of a greater value than the last: none of them is maximum, "
              "so no answer is written\n"
              "a greater one may do, as --limit N: N is at most 1000000000, and 1000000 without it\n"
              "S and C are empty: a solve run creates the files that it writes, or empties them, before it reads the others\n");
    COMMANDED("explain\0solve-max\0I\0S\0C\0--limit", flow, 2, "");
    COMMANDED("explain\0explain\0judge-max\0I\0S\0C", flow, 2, "");
    COMMANDED("explain\0help", flow, 2, "");
    COMMANDED("help", flow, 2, "");
    COMMANDED("", flow, 2, "");
    CHECK("texts that stand for arrays", COMMAND(DIMACS_ARRAYS, "explain\0judge-max\0I\0S\0C", "s 4\nf 1 2 4\n"), 1,
          "x node 2 Balance\n"
          "0 leaves node \0022, 4 enters it: 4 too little leaves\n"
          "flows out of it: 0\n"
          "flows into it: 1\n"
          "  arc \0011: \0021 -> \0022, FLOW 4\n");
    uint32_t status = dimacs_command(0, NULL, 0, 0, NULL, 0, NULL, 0, NULL, 0, NULL, 0, &needed, NULL, 0, &solved_needed,
                                     NULL, 0, &shown_needed);
    check_that("nothing at all", status == 2 && needed == 0 && solved_needed == 0 && shown_needed == 0);
    status = dimacs_command(0, WORDS("judge-max\0I\0S\0C"), 2, TEXT(max), NULL, 0, TEXT(cut), OUT, SOLVED, SHOWN);
    check_that("a text that can't be read", status == 3 && needed == 0);
    CASE("the texts for files", COMMAND(DIMACS_FILES, "solve-max\0I\0S\0C", ""), 0, "v max 6\n", cut);
    check_that("the first of them", solved_needed > 4 && !memcmp(solved, "s 6\n", 4));
}

static void requests(void) {
    static const uint32_t same[] = {0, 1, 2, 3}, twice[] = {0, 1, 2, 1};
    CHECK("a run", dimacs_request(WORDS("certify-max\0my I\0S\0C"), same, 4, OUT), 6, "-rrw\nmy I\nS\nC\n");
    CHECK("one that is told of", dimacs_request(WORDS("solve-max\0I\0C\0C"), same, 4, OUT), 6,
          "-rcc\nI\nC\nC\ndimacs: C: written twice\n");
    uint32_t status = dimacs_request(WORDS("certify-max\0I\0S\0C"), twice, 4, OUT);
    static const char slip[] = "dimacs: usage\nINSTANCE and CERTIFICATE are the same file: C\n";
    check_that("a slip", status == 2 && !memcmp(out, slip, strlen(slip)));
    status = dimacs_request(WORDS("--version"), same, 1, OUT);
    check_that("the version", status == 0 && !memcmp(out, "dimacs 0.", 9));
    check_that("no words", dimacs_request(NULL, 0, NULL, 0, OUT) == 2 && needed > 100);
}

int main(void) {
    kinds();
    keeps_to_the_room();
    reads_any_bytes();
    explains();
    requests();
    return count();
}
