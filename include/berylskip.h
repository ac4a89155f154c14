/* Berylskip for C and C++: the questions about a context-free grammar and one line of token classes.
 *
 * Link libberylskip.a, for x86-64 Linux: `tools/install PREFIX` puts it, this header and a pkg-config file below a prefix, and
 * `pkg-config --cflags --libs berylskip` then says the rest.
 *
 * Every function needs, and a caller must see to it:
 *   - Memory is lent as a pointer and the number of elements behind it. The pointer is aligned and not null; where the number
 *     is 0 it is not looked at, and may be anything, null too.
 *   - The pointers to the numbers of the answer are aligned and not null.
 *   - All lent memory, and each number of the answer, has some value before the call, whichever.
 *   - Memory and numbers that may be written (a pointer without const) overlap no other argument.
 *   - The thread that asks has 64 KiB of stack, or 1 MiB where it asks for a tree (docs/CONTRACTS.md, Stack).
 * Nothing else is needed: grammar, line and numbers may be anything, and are checked.
 *
 * Every function answers by its return value:
 *   0        the question is answered: the numbers of the answer are written, *place is as before, and the work memory
 *            (words and depths) is filled anew
 *   1 to 11  the question is turned down, by enum berylskip_refusal: *place is written, and the numbers of the answer are
 *   or 14    as before; after 1 to 9 and 14 all lent memory is as before, and after 10 and 11 the work memory is filled,
 *            and the marks, the tree's bytes or the records are as before
 * Where several refusals hold, the first in this order is given: 1 to 4 and 14 in reading order, then 5, 6, 7, 8, 9, 10, 11.
 * A rule is compared with all before it (14) once its last byte is read, before the next rule is looked at.
 * Memory past what is named keeps what it held. Nothing is kept between two calls.
 */
#ifndef BERYLSKIP_H
#define BERYLSKIP_H

#include <stddef.h>
#include <stdint.h>

#ifdef __cplusplus
extern "C" {
#endif

/* The largest counts of a grammar (classes, categories, rules, symbols of a rule) and of a line. */
#define BERYLSKIP_MAX_CLASSES 128
#define BERYLSKIP_MAX_CATEGORIES 32
#define BERYLSKIP_MAX_RULES 128
#define BERYLSKIP_MAX_SYMBOLS 8
#define BERYLSKIP_MAX_TOKENS 63

/* A category A is written 128 + A where it stands as a symbol of a rule. */
#define BERYLSKIP_CATEGORY 128

/* The work memory of a line: words (uint64_t) and depths (uint16_t), for so many categories and tokens. */
#define BERYLSKIP_WORDS(categories, tokens) ((size_t)(categories) * ((size_t)(tokens) + 1))
#define BERYLSKIP_DEPTHS(categories, tokens) (BERYLSKIP_WORDS(categories, tokens) * ((size_t)(tokens) + 1))

/* Enough for every grammar and line: 2,048 words and 131,072 depths. */
#define BERYLSKIP_MAX_WORDS BERYLSKIP_WORDS(BERYLSKIP_MAX_CATEGORIES, BERYLSKIP_MAX_TOKENS)
#define BERYLSKIP_MAX_DEPTHS BERYLSKIP_DEPTHS(BERYLSKIP_MAX_CATEGORIES, BERYLSKIP_MAX_TOKENS)

/* Where the word of (A, i) and the depth of (A, i, j) stand in the work memory of a line of so many tokens. */
#define BERYLSKIP_WORD_AT(tokens, category, start) ((size_t)(category) * ((size_t)(tokens) + 1) + (size_t)(start))
#define BERYLSKIP_DEPTH_AT(tokens, category, start, end) \
    (BERYLSKIP_WORD_AT(tokens, category, start) * ((size_t)(tokens) + 1) + (size_t)(end))

/* The marks of a line: a byte for each token. */
#define BERYLSKIP_MARKS(tokens) ((size_t)(tokens))

/* A tree: four bytes for each node, namely kind, class or rule number, start, end. */
#define BERYLSKIP_NODE_BYTES 4
#define BERYLSKIP_NODE_TOKEN 0
#define BERYLSKIP_NODE_RULE 1

/* The smallest and the largest end of a row that has none. Every end is at most BERYLSKIP_MAX_TOKENS. */
#define BERYLSKIP_NO_END 255

/* Why a question is turned down. The comment is the place. */
enum berylskip_refusal {
    BERYLSKIP_GRAMMAR_ENDS_EARLY = 1,   /* the grammar's length */
    BERYLSKIP_COUNT_OUTSIDE_LIMITS = 2, /* the byte of that count */
    BERYLSKIP_FLAG_ABOVE_ONE = 3,       /* that byte */
    BERYLSKIP_NOT_IN_GRAMMAR = 4,       /* the byte of that left category or symbol */
    BERYLSKIP_BYTES_AFTER_RULES = 5,    /* the first of them */
    BERYLSKIP_LINE_TOO_LONG = 6,        /* 63 */
    BERYLSKIP_TOKEN_NO_CLASS = 7,       /* the first such token */
    BERYLSKIP_NUMBER_OUTSIDE = 8,       /* 0 the category, 1 the start, 2 the end */
    BERYLSKIP_WORK_TOO_SMALL = 9,       /* 0 the words, 1 the depths */
    BERYLSKIP_TREE_OF_NO_FACT = 10,     /* 0 */
    BERYLSKIP_OUTPUT_TOO_SMALL = 11,    /* marks: bytes needed; forest: records needed; tree: 0 */
    BERYLSKIP_RULE_REPEATED = 14        /* the left category's byte of the first rule that equals an earlier one */
};

/* A record of the forest: the first place - 1 symbols of the rule derive start..middle, and the symbol at the place, counted
 * from 1, derives middle..end. */
struct berylskip_branch {
    uint8_t rule;
    uint8_t place;
    uint8_t start;
    uint8_t middle;
    uint8_t end;
};

/* The archive's own functions are those below, but that no pointer may be null even where the number of elements is 0: the functions
 * below put the address of an object of their own in its place. */
#if defined(__GNUC__)
#define BERYLSKIP_NONNULL __attribute__((nonnull))
#else
#define BERYLSKIP_NONNULL
#endif

uint8_t berylskip_chart_nonnull(const uint8_t *grammar, size_t grammar_length,
                                const uint8_t *line, size_t line_length,
                                uint64_t *words, size_t words_length,
                                uint16_t *depths, size_t depths_length,
                                size_t *rounds, size_t *facts, size_t *place) BERYLSKIP_NONNULL;
uint8_t berylskip_ends_nonnull(const uint8_t *grammar, size_t grammar_length,
                               const uint8_t *line, size_t line_length,
                               size_t category, size_t start,
                               uint64_t *words, size_t words_length,
                               uint16_t *depths, size_t depths_length,
                               uint64_t *row, uint32_t *ends, uint32_t *smallest, uint32_t *largest,
                               size_t *place) BERYLSKIP_NONNULL;
uint8_t berylskip_marks_nonnull(const uint8_t *grammar, size_t grammar_length,
                                const uint8_t *line, size_t line_length,
                                uint64_t *words, size_t words_length,
                                uint16_t *depths, size_t depths_length,
                                uint8_t *marks, size_t marks_length,
                                size_t *secret, size_t *place) BERYLSKIP_NONNULL;
uint8_t berylskip_tree_nonnull(const uint8_t *grammar, size_t grammar_length,
                               const uint8_t *line, size_t line_length,
                               size_t category, size_t start, size_t end,
                               uint64_t *words, size_t words_length,
                               uint16_t *depths, size_t depths_length,
                               uint8_t *out, size_t out_length,
                               size_t *nodes, size_t *place) BERYLSKIP_NONNULL;
uint8_t berylskip_forest_nonnull(const uint8_t *grammar, size_t grammar_length,
                                 const uint8_t *line, size_t line_length,
                                 uint64_t *words, size_t words_length,
                                 uint16_t *depths, size_t depths_length,
                                 struct berylskip_branch *rows, size_t rows_length,
                                 size_t *records, size_t *place) BERYLSKIP_NONNULL;

#define BERYLSKIP_LENT(pointer, length, none) ((length) != 0 ? (pointer) : (none)), (length)

/* Chart: every fact of every category, and its depth.
 * Needs BERYLSKIP_WORDS words and BERYLSKIP_DEPTHS depths, else 9.
 * Answers the greatest depth (*rounds, 0 without facts) and the number of facts (*facts). Word BERYLSKIP_WORD_AT (A, i) then has
 * bit j set exactly for fact (A, i, j); the number at BERYLSKIP_DEPTH_AT (A, i, j) is its depth, 0 where there is no fact.
 * Turned down by 1 to 7, 9 and 14; all lent memory is then as before. */
static inline uint8_t berylskip_chart(const uint8_t *grammar, size_t grammar_length,
                                      const uint8_t *line, size_t line_length,
                                      uint64_t *words, size_t words_length,
                                      uint16_t *depths, size_t depths_length,
                                      size_t *rounds, size_t *facts, size_t *place)
{
    uint8_t byte = 0;
    uint64_t word = 0;
    uint16_t depth = 0;

    return berylskip_chart_nonnull(BERYLSKIP_LENT(grammar, grammar_length, &byte),
                                   BERYLSKIP_LENT(line, line_length, &byte),
                                   BERYLSKIP_LENT(words, words_length, &word),
                                   BERYLSKIP_LENT(depths, depths_length, &depth), rounds, facts, place);
}

/* Ends: the ends of the category's facts from a start.
 * Needs the work memory of chart, else 9; a category of the grammar and a start up to the number of tokens, else 8.
 * Answers the word of (category, start) (*row), how many ends it shows (*ends), the smallest (*smallest) and the largest
 * (*largest), both BERYLSKIP_NO_END exactly where there is none; the work memory is filled as by chart.
 * Turned down by 1 to 9 and 14; all lent memory is then as before. */
static inline uint8_t berylskip_ends(const uint8_t *grammar, size_t grammar_length,
                                     const uint8_t *line, size_t line_length,
                                     size_t category, size_t start,
                                     uint64_t *words, size_t words_length,
                                     uint16_t *depths, size_t depths_length,
                                     uint64_t *row, uint32_t *ends, uint32_t *smallest, uint32_t *largest,
                                     size_t *place)
{
    uint8_t byte = 0;
    uint64_t word = 0;
    uint16_t depth = 0;

    return berylskip_ends_nonnull(BERYLSKIP_LENT(grammar, grammar_length, &byte),
                                  BERYLSKIP_LENT(line, line_length, &byte), category, start,
                                  BERYLSKIP_LENT(words, words_length, &word),
                                  BERYLSKIP_LENT(depths, depths_length, &depth), row, ends, smallest, largest, place);
}

/* Marks: which tokens are secret.
 * Needs the work memory of chart, else 9, and BERYLSKIP_MARKS bytes for the marks, else 11.
 * Answers a byte for each token, 1 secret and 0 not, and how many are 1 (*secret); the work memory is filled as by chart.
 * Turned down by 1 to 7, 9 and 14, after which all lent memory is as before, and by 11, with the number of bytes needed as its
 * place, after which the work memory is filled and the marks are as before. */
static inline uint8_t berylskip_marks(const uint8_t *grammar, size_t grammar_length,
                                      const uint8_t *line, size_t line_length,
                                      uint64_t *words, size_t words_length,
                                      uint16_t *depths, size_t depths_length,
                                      uint8_t *marks, size_t marks_length,
                                      size_t *secret, size_t *place)
{
    uint8_t byte = 0;
    uint64_t word = 0;
    uint16_t depth = 0;

    return berylskip_marks_nonnull(BERYLSKIP_LENT(grammar, grammar_length, &byte),
                                   BERYLSKIP_LENT(line, line_length, &byte),
                                   BERYLSKIP_LENT(words, words_length, &word),
                                   BERYLSKIP_LENT(depths, depths_length, &depth),
                                   BERYLSKIP_LENT(marks, marks_length, &byte), secret, place);
}

/* Tree: one tree of the fact (category, start, end), of least height.
 * Needs the work memory of chart, else 9; a span of the line, else 8; BERYLSKIP_NODE_BYTES for each node, else 11. Small
 * grammars have trees too large for any memory.
 * Answers the nodes in preorder, children left to right, and how many they are (*nodes); the work memory is filled as by chart.
 * Turned down by 1 to 9 and 14, after which all lent memory is as before, by 10 where (category, start, end) is no fact, and by 11,
 * both with place 0, after which the work memory is filled and the tree's bytes are as before. */
static inline uint8_t berylskip_tree(const uint8_t *grammar, size_t grammar_length,
                                     const uint8_t *line, size_t line_length,
                                     size_t category, size_t start, size_t end,
                                     uint64_t *words, size_t words_length,
                                     uint16_t *depths, size_t depths_length,
                                     uint8_t *out, size_t out_length,
                                     size_t *nodes, size_t *place)
{
    uint8_t byte = 0;
    uint64_t word = 0;
    uint16_t depth = 0;

    return berylskip_tree_nonnull(BERYLSKIP_LENT(grammar, grammar_length, &byte),
                                  BERYLSKIP_LENT(line, line_length, &byte), category, start, end,
                                  BERYLSKIP_LENT(words, words_length, &word),
                                  BERYLSKIP_LENT(depths, depths_length, &depth),
                                  BERYLSKIP_LENT(out, out_length, &byte), nodes, place);
}

/* Forest: a record for each way in which the first symbols of a rule derive a span.
 * Needs the work memory of chart, else 9, and room for every record, else 11; lend room for 0 records to learn how many there are.
 * Answers the records, ascending by rule, place, start, middle and end, each once, and how many they are (*records); the work
 * memory is filled as by chart.
 * Turned down by 1 to 7, 9 and 14, after which all lent memory is as before, and by 11, with the number of records needed as its
 * place, after which the work memory is filled and the records are as before. */
static inline uint8_t berylskip_forest(const uint8_t *grammar, size_t grammar_length,
                                       const uint8_t *line, size_t line_length,
                                       uint64_t *words, size_t words_length,
                                       uint16_t *depths, size_t depths_length,
                                       struct berylskip_branch *rows, size_t rows_length,
                                       size_t *records, size_t *place)
{
    uint8_t byte = 0;
    uint64_t word = 0;
    uint16_t depth = 0;
    struct berylskip_branch branch = {0, 0, 0, 0, 0};

    return berylskip_forest_nonnull(BERYLSKIP_LENT(grammar, grammar_length, &byte),
                                    BERYLSKIP_LENT(line, line_length, &byte),
                                    BERYLSKIP_LENT(words, words_length, &word),
                                    BERYLSKIP_LENT(depths, depths_length, &depth),
                                    BERYLSKIP_LENT(rows, rows_length, &branch), records, place);
}

#undef BERYLSKIP_LENT
#undef BERYLSKIP_NONNULL

#ifdef __cplusplus
}
#endif

#endif
