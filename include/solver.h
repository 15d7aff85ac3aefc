/* The operations for C, C++ and Rust to call, on x86-64 Linux: libsolver_c.a, made by `tools/build.py solver_c`, or the shared library of docs/MANUAL.md.
 *
 * A slice is a pointer and then its length in elements. The caller sees to it that, in every call,
 *   - no pointer is null, not even that of a slice of length 0;
 *   - each points to as many elements as its length says, or more: the answer to SOLVER_WORDS words;
 *   - words are aligned as uint64_t is;
 *   - nothing that is written (a pointer without const, and the answer) overlaps anything else that is lent;
 *   - nothing else writes what is lent while the call runs: bytes of a mapped file that others may write are copied first.
 * Nothing more is asked: every function takes all values, ends, and answers a result or a refusal.
 *
 * A call takes under SOLVER_STACK bytes of stack and no other memory than what is lent, and keeps nothing for later calls. Calls may run in any number
 * of threads at once, also over the same file.
 */
#ifndef SOLVER_H
#define SOLVER_H

#include <stddef.h>
#include <stdint.h>

#ifdef __cplusplus
extern "C" {
#endif

/* The section of docs/CHANGES.md that this header belongs to. */
#define SOLVER_VERSION 17

/* The limits of a model, and how much to lend so that it is enough for every model. */
#define SOLVER_MAX_LINES 64
#define SOLVER_MAX_LEVELS 8
#define SOLVER_MAX_GAPS 1023        /* of a lent tree */
#define SOLVER_MAX_FILE 4248        /* bytes of a file: 16 + 8 + 2 * 64 + 8 * 64 * 8 */
#define SOLVER_MAX_PAGE 2665        /* bytes of a bench page: 65 rows of 41 */
#define SOLVER_MAX_READ_WORDS 512   /* selections that a reading fills: 64 lines, 8 levels; beside them 8 signs, 64 kinds, 64 thresholds */
#define SOLVER_MAX_ROOM 1025        /* working words of the one-sided route: one more than the leaves of a lent tree */
#define SOLVER_STACK 32768

/* A level's sign, and a line's kind. */
enum solver_sign { SOLVER_LEAST, SOLVER_GREATEST };
enum solver_kind { SOLVER_ANY, SOLVER_ALL, SOLVER_VOTE };

/* The six words of an answer. Where the number is a refusal the others are 0; but where solver_built and solver_page refuse with
 * SOLVER_CEILING, the count is the forecast. A refusal changes nothing that was lent but the answer. */
enum solver_word {
    SOLVER_NUMBER, /* SOLVER_ACCEPTED, or the refusal */
    SOLVER_SET,    /* bit i is line i */
    SOLVER_COUNT,  /* queries made */
    SOLVER_LENGTH, /* bytes written to the buffer */
    SOLVER_LINES,
    SOLVER_LEVELS,
    SOLVER_WORDS   /* how many there are */
};

/* The refusals. include/refusals.txt has each in words, for each operation, with what to do. 8 is retired. */
enum solver_refusal {
    SOLVER_ACCEPTED = 0,
    SOLVER_HEADER_SHORT = 1,    /* the file has under 16 bytes */
    SOLVER_BAD_LINES = 2,       /* no line, or over 64; in joining, over 64 together */
    SOLVER_BAD_LEVELS = 3,      /* no level, or over 8 */
    SOLVER_OFFSET = 4,          /* an offset in the header is not what the counts say */
    SOLVER_FILE_LENGTH = 5,     /* the file's length is not what the counts say */
    SOLVER_SIGN_OR_KIND = 6,    /* a sign or a kind that there is not */
    SOLVER_STRAY_SELECTION = 7, /* a word selects a line of n or more */
    SOLVER_BOUNDS = 9,          /* a set has a line of n or more, or a is not inside b */
    SOLVER_CEILING = 10,        /* more queries than the ceiling allows */
    SOLVER_TREE = 11,           /* a lent tree has too many gaps, or a gap that is 0 or above its height */
    SOLVER_ROOM = 12,           /* a lent slice or buffer is too short */
    SOLVER_SLICE_LENGTH = 13,   /* a lent slice is not as long as the counts say */
    SOLVER_THRESHOLD = 14,      /* a threshold that its line cannot have */
    SOLVER_LEVELS_DIFFER = 15   /* two models to be joined differ in their levels */
};

/* Fills signs, kinds, thresholds and words from a file, thresholds with 0 from an old one; entries beyond its counts are kept. Answers lines and levels. */
void solver_read(const uint8_t *file, size_t file_len, uint8_t *signs, size_t signs_len, uint8_t *kinds, size_t kinds_len,
                 uint8_t *thresholds, size_t thresholds_len, uint64_t *words, size_t words_len, uint64_t answer[SOLVER_WORDS]);

/* Writes the new file of a model of n lines and d levels into a buffer; bytes after the file are kept. Answers the length. */
void solver_write(size_t n, size_t d, const uint8_t *signs, size_t signs_len, const uint8_t *kinds, size_t kinds_len,
                  const uint8_t *thresholds, size_t thresholds_len, const uint64_t *words, size_t words_len, uint8_t *buffer,
                  size_t buffer_len, uint64_t answer[SOLVER_WORDS]);

/* One query at the arguments, level 1 first. Answers the set. */
void solver_query(const uint8_t *file, size_t file_len, const uint64_t *arguments, size_t arguments_len,
                  uint64_t answer[SOLVER_WORDS]);

/* Judging between the bounds a and b: by plain rounds and by the built-in trees, each under a ceiling, and by the gaps of two lent trees. By the
 * built-in trees the count is known beforehand: if this forecast is over the ceiling, nothing is judged. Answers the set and the count. */
void solver_plain(const uint8_t *file, size_t file_len, uint64_t a, uint64_t b, uint64_t ceiling, uint64_t answer[SOLVER_WORDS]);
void solver_built(const uint8_t *file, size_t file_len, uint64_t a, uint64_t b, uint64_t ceiling, uint64_t answer[SOLVER_WORDS]);
void solver_lent(const uint8_t *file, size_t file_len, uint64_t a, uint64_t b, const uint8_t *u, size_t u_len, const uint8_t *v,
                 size_t v_len, uint64_t answer[SOLVER_WORDS]);

/* Judging from no line to all lines by the one-sided route, over the gaps of one lent tree, that of the greatest levels. The words are its working room, one
 * more than the tree's leaves: what these hold in the end is left free, and words after them are kept. Answers the set and the count. */
void solver_one_sided(const uint8_t *file, size_t file_len, const uint8_t *v, size_t v_len, uint64_t *words, size_t words_len,
                      uint64_t answer[SOLVER_WORDS]);

/* The bench page of the judgement by built-in trees from no line to all lines, under a ceiling of 1,000,000: for n lines n + 1 rows of 41 bytes;
 * bytes after the page are kept. Answers the length. */
void solver_page(const uint8_t *file, size_t file_len, uint8_t *buffer, size_t buffer_len, uint64_t answer[SOLVER_WORDS]);

/* The models of two files joined in one new file in a buffer, the lines of the second behind those of the first; bytes after the file are kept.
 * Both may be the same file. Answers the length. */
void solver_join(const uint8_t *first, size_t first_len, const uint8_t *second, size_t second_len, uint8_t *buffer, size_t buffer_len,
                 uint64_t answer[SOLVER_WORDS]);

#ifdef __cplusplus
}
#endif

#endif
