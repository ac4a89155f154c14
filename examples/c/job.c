/* The document's job: rounds, facts, marks and ends of one line. */
#include <stdio.h>

#include "berylskip.h"

#define CATEGORIES 1
#define TOKENS 6
#define COUNT(array) (sizeof(array) / sizeof *(array))

static const uint8_t grammar[] = {3, 0, 0, 0, 1, 1, 2, 0, 3, 128, 1, 0, 0, 1, 0};
static const uint8_t line[TOKENS] = {2, 0, 1, 0, 1, 0};
static uint64_t words[BERYLSKIP_WORDS(CATEGORIES, TOKENS)];
static uint16_t depths[BERYLSKIP_DEPTHS(CATEGORIES, TOKENS)];

static uint8_t print_facts(size_t *place)
{
    size_t rounds = 0, facts = 0;
    uint8_t refused = berylskip_chart(grammar, sizeof grammar, line, TOKENS, words, COUNT(words), depths, COUNT(depths),
                                      &rounds, &facts, place);

    if (refused == 0)
        printf("rounds %zu facts %zu\n", rounds, facts);
    return refused;
}

static uint8_t print_marks(size_t *place)
{
    uint8_t marks[BERYLSKIP_MARKS(TOKENS)] = {0};
    size_t secret = 0, t;
    uint8_t refused = berylskip_marks(grammar, sizeof grammar, line, TOKENS, words, COUNT(words), depths, COUNT(depths),
                                      marks, sizeof marks, &secret, place);

    if (refused != 0)
        return refused;
    printf("marks ");
    for (t = 0; t < TOKENS; t++)
        putchar('0' + marks[t]);
    printf("\nsecret %zu\n", secret);
    return 0;
}

/* Where category 0 ends that begins at a start. */
static uint8_t print_ends(size_t start, size_t *place)
{
    uint64_t row = 0;
    uint32_t ends = 0, smallest = 0, largest = 0;
    uint8_t refused = berylskip_ends(grammar, sizeof grammar, line, TOKENS, 0, start, words, COUNT(words), depths, COUNT(depths),
                                     &row, &ends, &smallest, &largest, place);

    if (refused != 0)
        return refused;
    if (smallest == BERYLSKIP_NO_END)
        printf("from %zu: no end\n", start);
    else
        printf("from %zu: ends %lu, the smallest %lu, the largest %lu\n", start, (unsigned long)ends, (unsigned long)smallest,
               (unsigned long)largest);
    return 0;
}

int main(void)
{
    size_t place = 0, start;
    uint8_t refused = print_facts(&place);

    if (refused == 0)
        refused = print_marks(&place);
    for (start = 0; start < 2 && refused == 0; start++)
        refused = print_ends(start, &place);
    if (refused != 0)
        printf("refused %d %zu\n", refused, place);
    return refused != 0;
}
