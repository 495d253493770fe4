#!/usr/bin/env python3
"""Makes rows of the conformance suite of the programs in docs/RULES.md and in examples/.

Usage: tools/rows.py            writes crates/ss_top_cases/data/rules.txt and examples.txt
       tools/rows.py --check    says whether they are as they would be written, by the status

In docs/RULES.md a section `## RULE: ..` may have a program between lines of three backquotes, and then its answer,
`refused RULE at LINE:COLUMN`. In an example the last comment lines say what is expected: `// $ specsharp run FILE OPTIONS`, the lines
of the output, and where the status isn't 0 `// = STATUS LINE`. All answers are written by hand.
"""
import glob
import os
import re
import sys

TOP = os.path.dirname(os.path.dirname(os.path.abspath(__file__)))
DATA = os.path.join(TOP, "crates", "ss_top_cases", "data")
# Rules that no command has yet. Their rows are written as comments; take a rule away here to switch its row on.
LATER = set()

HEADER = """# Made by tools/rows.py of %s. Lines, by their first bytes:
#   ===     a new case, and its name
#   $       the words of the command line; FILE stands for the name of a file that holds the source
#   |       a line of the source and its line end
#   >       a line of output and its line end
#   =       what is expected: the number of the status, and after it its status line where it has one
#   # later:  a line of a case that is switched off
"""


def row(name, command, source, output, expected, options=()):
    lines = ["=== " + name, " ".join(["$", command, "FILE", *options])]
    lines += ["| " + line for line in source]
    lines += ["> " + line for line in output]
    return lines + ["= " + expected]


def rule_rows():
    with open(os.path.join(TOP, "docs", "RULES.md")) as page:
        sections = page.read().split("\n## ")[1:]
    rows = []
    for section in sections:
        rule = int(section.split(":")[0])
        program = re.search(r"\n```\n(.*?)\n```\n", section, re.DOTALL)
        answer = re.search(r"`(refused %d at \d+:\d+)`" % rule, section)
        if program is None:
            continue
        if answer is None:
            sys.exit("docs/RULES.md: rule %d has no answer" % rule)
        lines = row("rule-%d" % rule, "expand", program.group(1).split("\n"), [], "4 " + answer.group(1))
        rows.append(["# later: " + line for line in lines] if rule in LATER else lines)
    return rows


def example_row(path):
    with open(path) as file:
        lines = file.read().split("\n")[:-1]
    starts = [at for at, line in enumerate(lines) if line.startswith("// $ specsharp ")]
    if len(starts) != 1:
        sys.exit(path + ": no command, or more than one")
    words = lines[starts[0]].split()
    expected, output = "0", []
    for line in lines[starts[0] + 1:]:
        if line.startswith("// = "):
            expected = line[5:]
        else:
            output.append(line[3:])
    return row(os.path.basename(path)[:-4], words[3], lines, output, expected, words[5:])


def text(of, rows):
    return HEADER % of + "".join("\n" + "\n".join(lines) + "\n" for lines in rows)


def main():
    examples = sorted(glob.glob(os.path.join(TOP, "examples", "*.ssc")))
    files = {
        "rules.txt": text("docs/RULES.md", rule_rows()),
        "examples.txt": text("examples/", [example_row(path) for path in examples]),
    }
    for name, written in files.items():
        path = os.path.join(DATA, name)
        if sys.argv[1:] == ["--check"]:
            with open(path) as file:
                if file.read() != written:
                    sys.exit(path + " isn't what tools/rows.py writes")
        else:
            with open(path, "w") as file:
                file.write(written)


if __name__ == "__main__":
    main()
