#!/usr/bin/env python3
"""Brings the repository's own names of definitions and lemmas to today's spelling. Run once, at the top, after the kit's port.py.

A name that an .antt file of specs/ or proofs/ declares, or that an import gives, and that has a dash between two words gets
  - an underscore in its place, where the name begins with a small letter (`place-number`: `place_number`);
  - a capital after it, where it begins with a capital (`End-moment`: `EndMoment`).
It is respelled wherever it stands as a whole word: in .antt files, in .rt files (in clauses: program text has no such
word), and in README.md and docs/ between backticks. Comments, strings, the names of goals and everything below src/
that is no clause stay as they are. Prints the names that would fall together with another and stops, where there are such.

usage: python3 tools/respell.py [--list]
"""
import os
import re
import sys

WORD = r"[^\s(){}\[\];,.«»`\"]+"
DECLARED = re.compile(r"^\s*(?:(?:abbrev|unfoldable|pub|data|record)\s+)*(" + WORD + r")\s*(?:[({][^)}]*[)}]\s*)*:(?!:)\s*(.*)$")
ALIAS = re.compile(r"[\w'-]+ as (" + WORD + ")")
HEAD = re.compile(r"^\s*(?:pub\s+)?(?:record|data|pub record|pub data)\s+(" + WORD + ")")


def files(root, *ends):
    for folder, dirs, names in os.walk(root):
        dirs[:] = sorted(d for d in dirs if d not in ("out", "target", ".git", "must-fail", "data"))
        for name in sorted(names):
            if name.endswith(ends):
                yield os.path.join(folder, name)


def read(path):
    with open(path, encoding="utf-8") as f:
        return f.read()


def declared():
    """The names that .antt files declare, and those among them that answer a goal of the check."""
    names, goals = set(), set()
    for path in files("crates", ".antt"):
        for line in read(path).splitlines():
            line = line.split("--", 1)[0] if not re.search(r"[^\s]--", line) else line
            m = DECLARED.match(line)
            if m:
                names.add(m.group(1))
                if m.group(2).startswith("goal."):
                    goals.add(m.group(1))
            m = HEAD.match(line)
            if m:
                names.add(m.group(1))
    for path in files("crates", ".antt", ".rt"):
        for line in read(path).splitlines():
            if re.match(r"\s*(?:ghost )?use Rattle\.", line):
                names.update(ALIAS.findall(line))
    return names, goals


def respelled(name):
    if name[0].isupper():
        return re.sub(r"(?<=\w)-(\w)", lambda m: m.group(1).upper(), name)
    return re.sub(r"(?<=\w)-(?=\w)", "_", name)


def turn(text, table, comment):
    out = []
    for line in text.split("\n"):
        m = re.search(r"(?:^|\s)" + re.escape(comment), line)
        code, rest = (line[: m.start()], line[m.start():]) if m else (line, "")
        parts = re.split(r'("(?:[^"\\]|\\.)*")', code)
        for i in range(0, len(parts), 2):
            parts[i] = re.sub(WORD, lambda w: table.get(w.group(0), w.group(0)), parts[i])
        out.append("".join(parts) + rest)
    return "\n".join(out)


def main():
    names, goals = declared()
    table = {n: respelled(n) for n in names - goals if respelled(n) != n}
    clash = {}
    for old, new in table.items():
        clash.setdefault(new, set()).add(old)
    together = [(new, olds) for new, olds in clash.items() if len(olds) > 1 or new in names]
    for new, olds in sorted(together):
        print("falls together:", new, "from", ", ".join(sorted(olds)), "(stands already)" if new in names else "")
    if together or "--list" in sys.argv:
        for old in sorted(table):
            print(old, table[old])
        raise SystemExit(1 if together else 0)
    for path in files("crates", ".antt", ".rt"):
        text = read(path)
        new = turn(text, table, "--" if path.endswith(".antt") else "//")
        if new != text:
            with open(path, "w", encoding="utf-8") as f:
                f.write(new)
    # docs/PROGRAMS.md speaks of the words of scripts, which keep their spelling
    for path in ["README.md", *(p for p in files("docs", ".md") if not p.endswith("PROGRAMS.md"))]:
        text = read(path)
        new = re.sub(r"`[^`\n]+`", lambda m: re.sub(WORD, lambda w: table.get(w.group(0), w.group(0)), m.group(0)), text)
        if new != text:
            with open(path, "w", encoding="utf-8") as f:
                f.write(new)
    print(f"respelled {len(table)} names")


if __name__ == "__main__":
    main()
