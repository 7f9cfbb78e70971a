#!/usr/bin/env python3
"""Puts the tables that tools/bench.sh and tools/hostile.sh print into a document, each in place of the table that stands there under the same heading, or
behind the words of a heading that has no table yet.

    tools/bench.sh | python3 tools/figures.py docs/BENCHMARKS.md
    tools/hostile.sh | python3 tools/figures.py docs/BENCHMARKS.md

What is printed is passed on. The words between the headings and the tables stay; read them again, they may speak of figures."""
import sys


def tables(lines):
    """The lines of the first table under each heading."""
    found, heading = {}, None
    for line in lines:
        if line.startswith("## "):
            heading = line
        elif line.startswith("|") and heading:
            found.setdefault(heading, []).append(line)
    return found


def sections(document):
    """The lines of a document, from heading to heading."""
    parts = [[]]
    for line in document:
        if line.startswith(("# ", "## ")):
            parts.append([])
        parts[-1].append(line)
    return parts


def with_table(section, table):
    """A section with this table in place of its own, or at its end."""
    own = [at for at, line in enumerate(section) if line.startswith("|")]
    words = [line for line in section if not line.startswith("|")]
    if own:
        return words[:own[0]] + table + words[own[0]:]
    while words[-1] == "":
        words.pop()
    return words + [""] + table + [""]


def replaced(document, printed):
    out, missing = [], set(printed)
    for section in sections(document):
        heading = section[0] if section else None
        out += with_table(section, printed[heading]) if heading in printed else section
        missing.discard(heading)
    if missing:
        sys.exit("figures: the document has no heading " + ", ".join(sorted(missing)))
    return out


def main():
    path, lines = sys.argv[1], []
    for line in sys.stdin:
        print(line, end="", flush=True)
        lines.append(line.rstrip("\n"))
    with open(path) as f:
        document = f.read().split("\n")
    with open(path, "w") as f:
        f.write("\n".join(replaced(document, tables(lines))))


if __name__ == "__main__":
    main()
