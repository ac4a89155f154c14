"""Lark's Earley parser over a list of tokens; see workload.py for how it is called.

top: what can be met top-down from the start at position 0, as a shared forest that is not walked.
all: the same for a grammar around this one that predicts every category at every position, the nearest to a whole chart.
tree: one tree of the start over the whole line (ambiguity 'resolve').
"""
import sys

import lark
from lark import Lark, Token
from lark.lexer import Lexer
from workload import Workload, derives, say, symbol, timed


class Tokens(Lexer):
    """The line is tokens already."""

    def __init__(self, _):
        pass

    def lex(self, line):
        for token in line:
            yield Token(f"T{token}", str(token))


def word(symbol):
    kind, number = symbol
    return f"n{number}" if kind == "category" else f"T{number}"


def text_of(workload, mode):
    sides = workload.alternatives()
    classes = [f"T{number}" for number in range(workload.classes)]
    text = f"%declare {' '.join(classes)}\n"
    for left, rights in sides.items():
        text += f"n{left}: " + "\n | ".join(" ".join(map(word, right)) for right in rights) + "\n"
    if mode == "all":
        each = classes + [f"n{left}" for left in sides]
        text += "whole: items\nitems:\n | items item\nitem: " + "\n | ".join(each) + "\n"
    return text


def plain(tree):
    """Lark's tree as workload.py wants it."""
    if isinstance(tree, Token):
        return symbol(str(tree))
    return (*symbol(str(tree.data)), [plain(child) for child in tree.children])


def run(mode, runs, path):
    workload = Workload(path)
    start = "whole" if mode == "all" else f"n{workload.start}"
    wanted = "resolve" if mode == "tree" else "forest"
    parser = Lark(text_of(workload, mode), start=start, parser="earley", lexer=Tokens, ambiguity=wanted)

    def parsed(line):
        try:
            return parser.parse(line)
        except (lark.UnexpectedInput, lark.exceptions.ParseError):
            return None

    for _ in range(runs):
        for number, line in enumerate(workload.lines):
            tree, microseconds = timed(lambda: parsed(line))
            if mode == "tree" and tree is not None and not derives(workload, plain(tree), line):
                print("error gives a tree that is none")
            say(number, tree is not None, microseconds)


if sys.argv[1] == "version":
    print("Lark", lark.__version__)
else:
    try:
        run(sys.argv[1], int(sys.argv[2]), sys.argv[3])
    except (lark.exceptions.LarkError, RecursionError, MemoryError) as fault:
        print("error", type(fault).__name__, str(fault).splitlines()[0][:60] if str(fault) else "")
