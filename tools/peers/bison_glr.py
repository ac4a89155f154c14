"""GNU bison's GLR parser, generated and compiled for each grammar; see workload.py for how it is called.

top: whether the start derives the whole line; every rule merges (%merge), no chart and no forest is kept. Only parsing is timed.
The generated files stand in the folder FIGURES_FOLDER for that while. The limit on CPU time is one for each process.
"""
import os
import subprocess
import sys
import tempfile

from workload import Workload

MAIN = r"""
static double now(void) { struct timespec t; clock_gettime(CLOCK_THREAD_CPUTIME_ID, &t); return t.tv_sec * 1e6 + t.tv_nsec / 1e3; }
/* One timing repeats the line so often that it takes two milliseconds or more. */
int main(void) {
  for (int run = 0; run < RUNS; run++)
    for (int number = 0; number < LINES; number++) {
      int answer, times = 0;
      double before = now();
      do { line = lines[number]; length = lengths[number]; at = 0; answer = yyparse(); times++; } while (now() - before < 2000);
      if (answer == 2) { printf("error memory\n"); return 0; }
      printf("%d %s %.3f - -\n", number, answer == 0 ? "yes" : "no", (now() - before) / times);
      fflush(stdout);
    }
  return 0;
}
"""


def word(symbol):
    kind, number = symbol
    return f"n{number}" if kind == "category" else f"T{number}"


def text_of(workload, runs):
    text = "%glr-parser\n%{\n#include <stdio.h>\n#include <stdlib.h>\n#include <time.h>\n#define YYMAXDEPTH 100000000\n"
    text += "int yylex(void); void yyerror(const char *s);\nstatic const int *line; static int length, at;\n%}\n"
    text += "%define api.value.type {int}\n%code { static int merged(int one, int other) { (void)other; return one; } }\n"
    text += "".join(f"%token T{number} {300 + number}\n" for number in range(workload.classes))
    text += f"%start n{workload.start}\n%%\n"
    for left, rights in workload.alternatives().items():
        sides = [(" ".join(map(word, right)) or "%empty") + " %merge <merged> { $$ = 0; }" for right in rights]
        text += f"n{left}: " + "\n | ".join(sides) + "\n;\n"
    text += "%%\nint yylex(void) { return at < length ? 300 + line[at++] : 0; }\nvoid yyerror(const char *s) { (void)s; }\n"
    for number, line in enumerate(workload.lines):
        text += f"static const int line{number}[] = {{{','.join(map(str, line + [0]))}}};\n"
    text += f"static const int *lines[] = {{{','.join(f'line{number}' for number in range(len(workload.lines)))}}};\n"
    text += f"static const int lengths[] = {{{','.join(str(len(line)) for line in workload.lines)}}};\n"
    return text + f"#define RUNS {runs}\n#define LINES {len(workload.lines)}\n" + MAIN


def run(runs, path):
    with tempfile.TemporaryDirectory(dir=os.environ["FIGURES_FOLDER"]) as folder:
        source, code, parser = (os.path.join(folder, name) for name in ("g.y", "g.c", "g"))
        with open(source, "w", encoding="utf-8") as file:
            file.write(text_of(Workload(path), runs))
        for command in (["bison", "-Wnone", "-o", code, source], ["gcc", "-O2", "-w", "-o", parser, code]):
            done = subprocess.run(command, capture_output=True, text=True)
            if done.returncode:
                reason = next((text.split("error:")[1] for text in done.stderr.splitlines() if "error:" in text), "")
                print("error", command[0], reason.strip()[:60], flush=True)
                return 0
        return subprocess.run([parser]).returncode


if sys.argv[1] == "version":
    print("; ".join(subprocess.run([command, "--version"], capture_output=True, text=True).stdout.splitlines()[0]
                    for command in ("bison", "gcc")))
else:
    status = run(int(sys.argv[2]), sys.argv[3])
    if status < 0:  # ends by the signal that ended the parser
        os.kill(os.getpid(), -status)
    sys.exit(status)
