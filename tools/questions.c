/* questions JOB...: asks every question of the header about the grammar and the line of each job, a file of bytes.
 *
 * Each call is lent exactly the memory that it needs, or one element less, in blocks of its own that nobody has set; and every
 * element of an answer is looked at. Under valgrind, a step past the end of a block is seen, and so is an answer that hangs on
 * what the memory held. Prints the number of calls; the exit status is 1 where a call did not answer as the header says. */
#include <stdio.h>
#include <stdlib.h>
#include <string.h>

#include "berylskip.h"

#define MAX_JOB 4096
#define MUCH_ROOM (1 << 20)

enum question { CHART, ENDS, MARKS, TREE, FOREST };

/* What is asked, and how many elements are lent for it; `out` is the marks, the tree's bytes or the records. */
struct call {
    const uint8_t *grammar, *line;
    size_t grammar_length, tokens, category, start, end, words, depths, out;
};

static size_t calls, wrong, zeros;

static void *lend(size_t count, size_t size)
{
    void *block = malloc(count * size);

    if (block == NULL) {
        fputs("questions: no memory\n", stderr);
        exit(2);
    }
    return block;
}

/* Goes by what all bytes of a block hold, which valgrind reports where one of them was never set. */
static void look(const void *block, size_t length)
{
    const uint8_t *bytes = block;
    uint64_t sum = 0, word;

    for (; length >= sizeof word; length -= sizeof word, bytes += sizeof word) {
        memcpy(&word, bytes, sizeof word);
        sum ^= word;
    }
    while (length-- > 0)
        sum ^= *bytes++;
    if (sum == 0)
        zeros++;
}

/* Whether an answer of ends tells what the row's bits show. */
static int tells_row(uint64_t row, uint32_t ends, uint32_t smallest, uint32_t largest)
{
    uint32_t end, count = 0, first = BERYLSKIP_NO_END, last = BERYLSKIP_NO_END;

    for (end = 0; end <= BERYLSKIP_MAX_TOKENS; end++) {
        if ((row >> end & 1) == 0)
            continue;
        if (count++ == 0)
            first = end;
        last = end;
    }
    return ends == count && smallest == first && largest == last;
}

/* One call. The answer is how many there are (facts, ends, secret tokens, nodes, records), or the place of the refusal. */
static int ask(enum question question, const struct call *c, size_t *answer)
{
    uint64_t *words = lend(c->words, sizeof *words), row = 0;
    uint16_t *depths = lend(c->depths, sizeof *depths);
    size_t size = question == FOREST ? sizeof(struct berylskip_branch) : 1, rounds = 0, place = 0;
    uint32_t ends = 0, smallest = 0, largest = 0;
    void *out = lend(c->out, size);
    int refused = 0;

    *answer = 0;
    switch (question) {
    case CHART:
        refused = berylskip_chart(c->grammar, c->grammar_length, c->line, c->tokens, words, c->words, depths, c->depths,
                                  &rounds, answer, &place);
        break;
    case ENDS:
        refused = berylskip_ends(c->grammar, c->grammar_length, c->line, c->tokens, c->category, c->start, words, c->words,
                                 depths, c->depths, &row, &ends, &smallest, &largest, &place);
        *answer = ends;
        if (refused == 0 && !tells_row(row, ends, smallest, largest)) {
            printf("ends %zu %zu: %u ends from %u to %u, which the row does not show\n", c->category, c->start, ends, smallest, largest);
            wrong++;
        }
        break;
    case MARKS:
        refused = berylskip_marks(c->grammar, c->grammar_length, c->line, c->tokens, words, c->words, depths, c->depths,
                                  out, c->out, answer, &place);
        break;
    case TREE:
        refused = berylskip_tree(c->grammar, c->grammar_length, c->line, c->tokens, c->category, c->start, c->end, words,
                                 c->words, depths, c->depths, out, c->out, answer, &place);
        break;
    case FOREST:
        refused = berylskip_forest(c->grammar, c->grammar_length, c->line, c->tokens, words, c->words, depths, c->depths,
                                   out, c->out, answer, &place);
        break;
    }
    calls++;
    look(&rounds, sizeof rounds);
    look(&row, sizeof row);
    look(&smallest, sizeof smallest);
    look(&largest, sizeof largest);
    if (refused == 0 || refused == BERYLSKIP_TREE_OF_NO_FACT || refused == BERYLSKIP_OUTPUT_TOO_SMALL) {
        look(words, c->words * sizeof *words);
        look(depths, c->depths * sizeof *depths);
    }
    if (refused != 0)
        *answer = place;
    else if (question == MARKS)
        look(out, c->tokens);
    else if (question == TREE)
        look(out, *answer * BERYLSKIP_NODE_BYTES);
    else if (question == FOREST)
        look(out, *answer * size);
    look(answer, sizeof *answer);
    free(words);
    free(depths);
    free(out);
    return refused;
}

static void expect(const char *job, const char *what, int refused, int expected)
{
    if (refused != expected) {
        printf("%s: %s: answered %d, not %d\n", job, what, refused, expected);
        wrong++;
    }
}

/* Work memory that is one element too small is refused by every question. */
static void ask_with_less_work(const char *job, struct call c)
{
    size_t answer, words = c.words;
    int question;

    for (question = CHART; question <= FOREST; question++) {
        c.words = words - 1;
        expect(job, "one word less", ask(question, &c, &answer), BERYLSKIP_WORK_TOO_SMALL);
        c.words = words;
        c.depths--;
        expect(job, "one depth less", ask(question, &c, &answer), BERYLSKIP_WORK_TOO_SMALL);
        c.depths++;
    }
}

/* The ends from a span's start, which may be out of range. */
static void ask_ends(const char *job, struct call c)
{
    size_t answer;
    int refused = ask(ENDS, &c, &answer);

    if (refused != BERYLSKIP_NUMBER_OUTSIDE)
        expect(job, "ends of a span's start", refused, 0);
}

/* The tree of a span: with much room, then with its own, then with a byte less. */
static void ask_tree(const char *job, struct call c)
{
    size_t nodes, answer;
    int refused;

    c.out = MUCH_ROOM;
    refused = ask(TREE, &c, &nodes);
    if (refused != 0) {
        if (refused != BERYLSKIP_NUMBER_OUTSIDE && refused != BERYLSKIP_TREE_OF_NO_FACT)
            expect(job, "a tree", refused, BERYLSKIP_OUTPUT_TOO_SMALL);
        return;
    }
    c.out = nodes * BERYLSKIP_NODE_BYTES;
    expect(job, "a tree's own room", ask(TREE, &c, &answer), 0);
    c.out--;
    expect(job, "a byte less", ask(TREE, &c, &answer), BERYLSKIP_OUTPUT_TOO_SMALL);
}

static void ask_all(const char *job, struct call c, const uint8_t *spans, size_t count)
{
    size_t answer, needed, i;
    int question, refused = ask(CHART, &c, &answer);

    if (refused != 0) {
        for (question = ENDS; question <= FOREST; question++)
            expect(job, "another question", ask(question, &c, &needed), refused);
        return;
    }
    ask_with_less_work(job, c);
    expect(job, "ends", ask(ENDS, &c, &answer), 0);
    c.out = c.tokens;
    expect(job, "marks", ask(MARKS, &c, &answer), 0);
    if (c.out-- > 0)
        expect(job, "a mark less", ask(MARKS, &c, &answer), BERYLSKIP_OUTPUT_TOO_SMALL);
    c.out = 0;
    refused = ask(FOREST, &c, &needed);
    if (needed > 0) {
        expect(job, "no records", refused, BERYLSKIP_OUTPUT_TOO_SMALL);
        c.out = needed;
        expect(job, "every record", ask(FOREST, &c, &answer), 0);
        c.out--;
        expect(job, "a record less", ask(FOREST, &c, &answer), BERYLSKIP_OUTPUT_TOO_SMALL);
    }
    for (i = 0; i < count; i++) {
        c.category = spans[3 * i];
        c.start = spans[3 * i + 1];
        c.end = spans[3 * i + 2];
        ask_ends(job, c);
        ask_tree(job, c);
    }
}

/* A block of exactly these bytes. */
static uint8_t *copy(const uint8_t *bytes, size_t length)
{
    uint8_t *block = lend(length, 1);

    if (length > 0)
        memcpy(block, bytes, length);
    return block;
}

/* A job's grammar, line and spans; a job that is cut short is a grammar with an empty line. */
static void ask_job(const char *job, const uint8_t *bytes, size_t length)
{
    size_t grammar_length = length < 2 ? 0 : bytes[0] + 256u * bytes[1], line_at = 3 + grammar_length, tokens = 0, count = 0;
    size_t categories = 0;
    uint8_t *grammar, *line;
    struct call c = {0};

    if (line_at < length && line_at + bytes[line_at - 1] < length) {
        tokens = bytes[line_at - 1];
        count = (length - line_at - tokens - 1) / 3;
    } else {
        grammar_length = length < 2 ? 0 : length - 2;
        line_at = 0;
    }
    grammar = copy(bytes + 2, grammar_length);
    line = copy(bytes + line_at, tokens);
    if (grammar_length > 0 && 1 + (size_t)grammar[0] < grammar_length)
        categories = grammar[1 + grammar[0]];
    c.grammar = grammar;
    c.grammar_length = grammar_length;
    c.line = line;
    c.tokens = tokens;
    c.words = BERYLSKIP_WORDS(categories, tokens);
    c.depths = BERYLSKIP_DEPTHS(categories, tokens);
    ask_all(job, c, bytes + line_at + tokens + 1, count);
    free(grammar);
    free(line);
}

int main(int argc, char **argv)
{
    static uint8_t bytes[MAX_JOB];
    int i;

    for (i = 1; i < argc; i++) {
        FILE *file = fopen(argv[i], "rb");

        if (file == NULL) {
            perror(argv[i]);
            return 2;
        }
        ask_job(argv[i], bytes, fread(bytes, 1, sizeof bytes, file));
        fclose(file);
    }
    printf("%zu calls, %zu wrong\n", calls, wrong);
    return wrong > 0;
}
