/* Empty vectors: a pointer may be null where the number of elements behind it is 0. */
#include <cstdio>
#include <vector>

#include "berylskip.h"

/* What is lent: some of these vectors are empty. */
struct Lent {
    std::vector<uint8_t> grammar, line;
    std::vector<uint64_t> words;
    std::vector<uint16_t> depths;
};

/* Every question, with no room for what it writes beside the work memory; prints how each ended. */
static void ask(const char *what, Lent lent)
{
    std::vector<uint8_t> marks, out;
    std::vector<berylskip_branch> rows;
    std::size_t rounds = 0, facts = 0, secret = 0, nodes = 0, records = 0, place = 0;
    uint64_t row = 0;
    uint32_t ends = 0, smallest = 0, largest = 0;
    const Lent &of = lent;
    int refused;

    if (marks.data() != nullptr || out.data() != nullptr || rows.data() != nullptr)
        std::puts("an empty vector has memory here");
    std::printf("%s\n", what);
    refused = berylskip_chart(of.grammar.data(), of.grammar.size(), of.line.data(), of.line.size(), lent.words.data(),
                              lent.words.size(), lent.depths.data(), lent.depths.size(), &rounds, &facts, &place);
    std::printf("chart %d place %zu rounds %zu facts %zu\n", refused, place, rounds, facts);
    place = 0;
    refused = berylskip_ends(of.grammar.data(), of.grammar.size(), of.line.data(), of.line.size(), 0, 0, lent.words.data(),
                             lent.words.size(), lent.depths.data(), lent.depths.size(), &row, &ends, &smallest, &largest,
                             &place);
    std::printf("ends %d place %zu ends %u smallest %u largest %u\n", refused, place, ends, smallest, largest);
    place = 0;
    refused = berylskip_marks(of.grammar.data(), of.grammar.size(), of.line.data(), of.line.size(), lent.words.data(),
                              lent.words.size(), lent.depths.data(), lent.depths.size(), marks.data(), marks.size(),
                              &secret, &place);
    std::printf("marks %d place %zu secret %zu\n", refused, place, secret);
    place = 0;
    refused = berylskip_tree(of.grammar.data(), of.grammar.size(), of.line.data(), of.line.size(), 0, 0, 0, lent.words.data(),
                             lent.words.size(), lent.depths.data(), lent.depths.size(), out.data(), out.size(), &nodes,
                             &place);
    std::printf("tree %d place %zu nodes %zu\n", refused, place, nodes);
    place = 0;
    refused = berylskip_forest(of.grammar.data(), of.grammar.size(), of.line.data(), of.line.size(), lent.words.data(),
                               lent.words.size(), lent.depths.data(), lent.depths.size(), rows.data(), rows.size(),
                               &records, &place);
    std::printf("forest %d place %zu records %zu\n", refused, place, records);
}

int main()
{
    /* One class; one category, secret; one rule: category 0 is empty. */
    const std::vector<uint8_t> grammar = {1, 0, 1, 1, 1, 0, 0}, none;

    ask("nothing at all", {none, none, {}, {}});
    ask("no work memory", {grammar, none, {}, {}});
    ask("words alone", {grammar, none, {0}, {}});
    ask("no token", {grammar, none, {0}, {0}});
    ask("a token, and no room for its mark", {grammar, {0}, {0, 0}, {0, 0, 0, 0}});
    return 0;
}
