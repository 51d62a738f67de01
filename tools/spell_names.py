#!/usr/bin/env python3
"""Brings the definitions and lemmas of specs/ and proofs/, and the ghost members of traits and structs, to one spelling.

usage: python3 tools/spell_names.py [--look]    at the top of the repository; --look changes nothing and prints what would be done

A word is in snake case, a type in camel case. The names of goals, which the checker makes, and the names of src/ stay.
Comments, strings and edits stay as they are. It is run once, after the script that turns the paths and operators.
"""

import collections
import os
import re
import sys

NAME = r"[A-Za-z0-9_'\u2032-]"
DEFINED = re.compile(r"^(\s*)((?:pub |abbrev |unfoldable )*)([^\s:(){}=]+(?: [^\s:(){}=]+)*) : (.*)")
TYPE = re.compile(r"^\s*(?:pub )?(?:record|data) ([^\s(:]+)")
GHOST = re.compile(r"^\s*(?:pub )?ghost ([a-zA-Z][\w'-]*)\s*[:=]")
TOKEN = re.compile(r"(?<!%s)%s+" % (NAME, NAME))

# Two names that would fall together: the lemma of a function's name ends in _lem.
APART = {
    "can-change": "can_change_lem",
    "cell-fits": "cell_fits_lem",
    "child-place": "child_place_lem",
    "code-digit": "code_digit_lem",
    "few-each": "few_each_lem",
    "if-sealed": "if_sealed_lem",
    "levels-fit": "levels_fit_lem",
    "same-node": "same_node_lem",
    "same-numbers": "same_numbers_lem",
    "top-load": "top_load_case",
}


def snake(name):
    if name in APART:
        return APART[name]
    if name[0].isupper():
        head, *rest = re.split("-", name)
        return head + "".join(r[:1].upper() + r[1:] for r in rest)
    name = name.replace("\u2032", "'")
    name = re.sub(r"(?<=[a-z0-9])([A-Z])", lambda m: "_" + m.group(1).lower(), name)
    return name.replace("-", "_")


def texts():
    for folder, dirs, files in os.walk("crates"):
        dirs[:] = sorted(d for d in dirs if d not in ("out", ".git"))
        for f in sorted(files):
            if f.endswith((".rt", ".antt")):
                yield os.path.join(folder, f)


def collect():
    words, goals, fields = set(), set(), set()
    for p in texts():
        with open(p, encoding="utf-8") as f:
            for line in f:
                if p.endswith(".rt"):
                    m = GHOST.match(line)
                    if m and "ghost use" not in line:
                        words.add(m.group(1))
                        fields.add(m.group(1))
                    continue
                if m := TYPE.match(line):
                    words.add(m.group(1))
                    continue
                m = DEFINED.match(line)
                if not m or line.lstrip().startswith(("--", "let ", "use ", "module ")):
                    continue
                for n in m.group(3).split():
                    if not re.fullmatch(NAME + "+", n):
                        continue
                    if m.group(4).startswith("goal."):
                        goals.add(n)
                        continue
                    words.add(n)
                    if m.group(1):
                        fields.add(n)
    return words - goals, fields - goals, goals


def split(line, comment):
    """The line's code and the rest, from its comment on."""
    quoted = False
    for i, c in enumerate(line):
        if c == '"' and (i == 0 or line[i - 1] != "\\"):
            quoted = not quoted
        if not quoted and line.startswith(comment, i) and (i == 0 or line[i - 1] in " \t"):
            return line[:i], line[i:]
    return line, ""


def main():
    look = "--look" in sys.argv
    words, fields, goals = collect()
    turn = {n: snake(n) for n in words if snake(n) != n}
    back = collections.defaultdict(set)
    for n in words:
        back[turn.get(n, n)].add(n)
    together = {k: v for k, v in back.items() if len(v) > 1}
    if together:
        print("fall together:", together)
        raise SystemExit(1)
    for p in texts():
        with open(p, encoding="utf-8") as f:
            old = f.read()
        comment = "--" if p.endswith(".antt") else "//"
        there = set(TOKEN.findall("\n".join(split(x, comment)[0] for x in old.split("\n"))))
        for n in sorted(there & set(turn)):
            if turn[n] in there:
                print(f"{p}: {n} becomes {turn[n]}, which stands there already")

        def one(m, code):
            n, at = m.group(0), m.start()
            if n not in turn:
                return n
            if at and code[at - 1] == ".":
                before = re.search(r"([A-Za-z0-9_'-]+)\.$", code[:at])
                if n not in fields and not (before and before.group(1)[0].isupper()):
                    print(f"{p}: .{n} stays: {code.strip()[:120]}")
                    return n
            return turn[n]

        out = []
        for line in old.split("\n"):
            code, rest = split(line, comment)
            parts = re.split(r'("(?:[^"\\]|\\.)*")', code) if p.endswith(".rt") else [code]
            parts = [x if x.startswith('"') else TOKEN.sub(lambda m, x=x: one(m, x), x) for x in parts]
            out.append("".join(parts) + rest)
        new = "\n".join(out)
        if new != old and not look:
            with open(p, "w", encoding="utf-8") as f:
                f.write(new)
    print(f"{len(turn)} of {len(words)} names turned")


main()
