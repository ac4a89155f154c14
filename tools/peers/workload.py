"""Reads a workload as `bench --write` writes it (rust/bench/src/text.rs), and says how a driver answers.

A driver is called as DRIVER MODE RUNS FILE. For each run and each line of the file it prints
`LINE VERDICT MICROSECONDS FACTS DEPTHS`, with - for what it does not compute, or `error REASON`; with MODE version, its version.
"""
import time


class Workload:
    """A grammar with its lines; a rule is its left category and its symbols, ('class', 7) or ('category', 3)."""

    def __init__(self, path):
        self.rules, self.lines, self.answers = [], [], []
        for text in open(path, encoding="utf-8"):
            item, _, rest = text.rstrip("\n").partition(" ")
            words = rest.split()
            if item == "grammar":
                self.name = rest
            elif item == "classes":
                self.classes = int(rest)
            elif item == "categories":
                self.categories = int(rest)
            elif item == "rule":
                self.rules.append((int(words[0]), [symbol(word) for word in words[1:]]))
            elif item == "start":
                self.start = int(rest)
            elif item == "line":
                self.lines.append([int(word) for word in words])
            elif item == "answer":
                self.answers.append(words)

    def alternatives(self):
        """The rules' right sides by category."""
        sides = {}
        for left, right in self.rules:
            sides.setdefault(left, []).append(right)
        return sides


def symbol(word):
    return ("category", int(word[1:])) if word[0] == "n" else ("class", int(word))


def derives(workload, tree, line):
    """Whether the tree is one of the start over the whole line. A tree is ('category', number, children) or ('class', number)."""
    leaves = []

    def follows_rules(node):
        if node[0] == "class":
            leaves.append(node[1])
            return True
        rule = node[1], [child[:2] for child in node[2]]
        return rule in workload.rules and all([follows_rules(child) for child in node[2]])

    return tree[:2] == ("category", workload.start) and follows_rules(tree) and leaves == line


def timed(action):
    """What the action answers, and the CPU microseconds of this thread that it took. (Where the CPU time of a process is limited,
    Linux counts the clock of the process in ticks of some milliseconds; that of the thread stays fine.)"""
    before = time.thread_time_ns()
    answer = action()
    return answer, (time.thread_time_ns() - before) / 1000


def say(line, verdict, microseconds, facts="-", depths="-"):
    print(line, "yes" if verdict else "no", f"{microseconds:.3f}", facts, depths, flush=True)
