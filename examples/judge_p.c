/* Writes the file of a small model, reads it back, judges it in each of the four ways, makes its bench page, and joins it with itself.
 *
 *   tools/build.py solver_c
 *   cc -std=c99 -I include examples/judge_p.c target/staticlib/libsolver_c.a -o target/judge_p && target/judge_p
 *   c++ -std=c++11 -I include -x c++ examples/judge_p.c -x none target/staticlib/libsolver_c.a -o target/judge_p && target/judge_p
 */
#include <inttypes.h>
#include <stdio.h>

#include "solver.h"

static void show_judged(const char *what, const uint64_t answer[SOLVER_WORDS]) {
    if (answer[SOLVER_NUMBER] != SOLVER_ACCEPTED) {
        printf("%s: refused %" PRIu64 ", count %" PRIu64 "\n", what, answer[SOLVER_NUMBER], answer[SOLVER_COUNT]);
    } else {
        printf("%s: set %" PRIu64 ", count %" PRIu64 "\n", what, answer[SOLVER_SET], answer[SOLVER_COUNT]);
    }
}

int main(void) {
    /* Model P: two lines, two levels. Level 1 is least, level 2 greatest. Line 0 is all of (level 1, line 1), line 1 is any of (level 2, line 0). */
    const uint8_t signs[2] = {SOLVER_LEAST, SOLVER_GREATEST};
    const uint8_t kinds[2] = {SOLVER_ALL, SOLVER_ANY};
    const uint8_t thresholds[2] = {0, 0}; /* none of the lines is a vote */
    const uint64_t words[4] = {1 << 1, 0, 0, 1 << 0};
    uint8_t file[SOLVER_MAX_FILE];
    uint64_t answer[SOLVER_WORDS];

    solver_write(2, 2, signs, 2, kinds, 2, thresholds, 2, words, 4, file, sizeof file, answer);
    if (answer[SOLVER_NUMBER] != SOLVER_ACCEPTED) {
        printf("written: refused %" PRIu64 "\n", answer[SOLVER_NUMBER]);
        return 1;
    }
    size_t length = answer[SOLVER_LENGTH];
    printf("written: %zu bytes\n", length);

    /* Slices that are long enough for every file. */
    uint8_t signs_read[SOLVER_MAX_LEVELS];
    uint8_t kinds_read[SOLVER_MAX_LINES];
    uint8_t thresholds_read[SOLVER_MAX_LINES];
    uint64_t words_read[SOLVER_MAX_READ_WORDS];
    solver_read(file, length, signs_read, SOLVER_MAX_LEVELS, kinds_read, SOLVER_MAX_LINES, thresholds_read, SOLVER_MAX_LINES,
                words_read, SOLVER_MAX_READ_WORDS, answer);
    printf("read: %" PRIu64 " lines, %" PRIu64 " levels, line 0 selects %" PRIu64 " at level 1\n", answer[SOLVER_LINES],
           answer[SOLVER_LEVELS], words_read[0]);

    /* No line at level 1, both at level 2. */
    const uint64_t arguments[2] = {0, 3};
    solver_query(file, length, arguments, 2, answer);
    printf("one query: set %" PRIu64 "\n", answer[SOLVER_SET]);

    /* From no line to both, which is 3. */
    solver_plain(file, length, 0, 3, 1000, answer);
    show_judged("plainly", answer);
    solver_plain(file, length, 0, 3, 2, answer);
    show_judged("plainly with 2 queries", answer);
    solver_built(file, length, 0, 3, 1000, answer);
    show_judged("by built-in trees", answer);
    solver_built(file, length, 0, 3, 3, answer);
    show_judged("by built-in trees with 3 queries", answer);

    /* A tree of height 1 with two leaves has one gap, of 1; a tree with one leaf has none. */
    const uint8_t two_leaves[1] = {1};
    solver_lent(file, length, 0, 3, two_leaves, 0, two_leaves, 0, answer);
    show_judged("by trees of one leaf", answer);
    solver_lent(file, length, 0, 3, two_leaves, 1, two_leaves, 0, answer);
    show_judged("by trees of two leaves and of one", answer);

    /* One tree, for the greatest level, with a word for each leaf and one more. */
    uint64_t room[3];
    solver_one_sided(file, length, two_leaves, 1, room, 3, answer);
    show_judged("by the one-sided route over two leaves", answer);

    /* The bench page of two lines: three rows of 41 bytes. */
    uint8_t page[SOLVER_MAX_PAGE];
    solver_page(file, length, page, sizeof page, answer);
    printf("page: %" PRIu64 " bytes\n", answer[SOLVER_LENGTH]);
    fwrite(page, 1, answer[SOLVER_LENGTH], stdout);

    /* Two cabinets of this model in one: four lines, of which all are 15. */
    uint8_t joined[SOLVER_MAX_FILE];
    solver_join(file, length, file, length, joined, sizeof joined, answer);
    printf("joined: %" PRIu64 " bytes\n", answer[SOLVER_LENGTH]);
    solver_built(joined, answer[SOLVER_LENGTH], 0, 15, 1000, answer);
    show_judged("joined, by built-in trees", answer);
    return 0;
}
