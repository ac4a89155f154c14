"""NLTK's chart parsers; see workload.py for how it is called.

chart: BottomUpLeftCornerChartParser, every complete edge of every span with its children (a packed forest), without depths.
earley: EarleyChartParser, only what can be met top-down from the start at position 0.
tree: the chart of `chart`, and the first tree that it lists of the start over the whole line.
"""
import sys

import nltk
from nltk.grammar import CFG, Nonterminal, Production
from nltk.parse.chart import BottomUpLeftCornerChartParser
from nltk.parse.earleychart import EarleyChartParser
from workload import Workload, derives, say, symbol, timed


def grammar_of(workload):
    names = [Nonterminal(f"n{number}") for number in range(workload.categories)]
    side = lambda right: [names[number] if kind == "category" else f"t{number}" for kind, number in right]
    return CFG(names[workload.start], [Production(names[left], side(right)) for left, right in workload.rules])


def plain(tree):
    """NLTK's tree as workload.py wants it: a leaf is t7, a node n3."""
    if isinstance(tree, str):
        return symbol(tree[1:])
    return (*symbol(str(tree.label())), [plain(child) for child in tree])


def run(mode, runs, path):
    workload = Workload(path)
    grammar = grammar_of(workload)
    parser = (EarleyChartParser if mode == "earley" else BottomUpLeftCornerChartParser)(grammar)
    for _ in range(runs):
        for number, line in enumerate(workload.lines):
            tokens = [f"t{token}" for token in line]
            if mode == "tree":
                tree, microseconds = timed(lambda: next(parser.parse(tokens), None))
                if tree is not None and not derives(workload, plain(tree), line):
                    print("error gives a tree that is none")
                say(number, tree is not None, microseconds)
                continue
            chart, microseconds = timed(lambda: parser.chart_parse(tokens))
            facts = {(edge.lhs(), edge.start(), edge.end()) for edge in chart.edges()
                     if edge.is_complete() and isinstance(edge.lhs(), Nonterminal)}
            whole = (grammar.start(), 0, len(tokens)) in facts
            say(number, whole, microseconds, len(facts) if mode == "chart" else "-")


if sys.argv[1] == "version":
    print("NLTK", nltk.__version__)
else:
    try:
        run(sys.argv[1], int(sys.argv[2]), sys.argv[3])
    except (ValueError, RecursionError, MemoryError) as fault:
        print("error", type(fault).__name__, str(fault).splitlines()[0][:60] if str(fault) else "")
