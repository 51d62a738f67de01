#!/usr/bin/env python3
"""Counts the places in src/ that could have a newer form, point by point.

Usage: places.py [FOLDER] [POINT]     FOLDER is the repository (default: the current folder).
Prints a line for each place, and after each point how many there are.
"""
import collections
import difflib
import pathlib
import re
import sys

ROOT = pathlib.Path(sys.argv[1] if len(sys.argv) > 1 else ".")
ONLY = sys.argv[2] if len(sys.argv) > 2 else None


def sources():
    for path in sorted(ROOT.glob("crates/*/src/**/*.rt")):
        yield path.relative_to(ROOT / "crates"), path.read_text().split("\n")


FILES = list(sources())


class Function:
    """A function: its name, where it stands, its parameters, its clauses and its body."""

    def __init__(self, path, line, head, clauses, body):
        self.path, self.line, self.head, self.clauses, self.body = path, line, head, clauses, body
        self.name = re.search(r"\bfn (\w+)", head).group(1)

    def parameters(self):
        inside = re.search(r"\((.*)\)", self.head, re.S)
        found = re.findall(r"(?:mut )?(\w+): ((?:[^,()\[\]<>]|<[^<>]*(?:<[^<>]*>)?[^<>]*>|\[[^\]]*\]|\([^()]*\))+)", inside.group(1)) if inside else []
        return [(name, kind.strip()) for name, kind in found]

    def where(self):
        return f"{self.path}:{self.line} {self.name}"


def functions():
    found = []
    for path, lines in FILES:
        n = 0
        while n < len(lines):
            if re.match(r"\s*(pub(\(\w+\))? )?(const )?fn \w+", lines[n]):
                start = n
                indent = len(lines[n]) - len(lines[n].lstrip())
                text = []
                while n < len(lines):
                    text.append(lines[n])
                    last = lines[n].rstrip()
                    if last.endswith(";") and "ensures" in last or last == " " * indent + "}" or last.endswith("{}"):
                        break
                    n += 1
                head, clauses, body, part = [], [], [], "head"
                for row in text:
                    bare = row.strip()
                    if part != "body" and re.match(r"(requires|ensures)\b", bare):
                        part = "clauses"
                        clauses.append(bare.rstrip(";"))
                    elif part == "head":
                        head.append(bare)
                        if bare.endswith("{") and "fn" in " ".join(head):
                            part = "body"
                    elif part == "clauses" and bare == "{":
                        part = "body"
                    elif part == "body":
                        body.append(bare)
                found.append(Function(path, start + 1, " ".join(head), clauses, body))
            n += 1
    return found


FUNCTIONS = functions()


def lines_with(pattern, skip=r"^\s*(//|ghost use|requires|ensures|ghost )"):
    for path, lines in FILES:
        for n, line in enumerate(lines):
            if re.search(pattern, line) and not re.search(skip, line):
                yield f"{path}:{n + 1} {line.strip()}"


def pairs_of_lines(first, second):
    """A line of the one kind with a line of the other right behind it."""
    for path, lines in FILES:
        for n, (line, behind) in enumerate(zip(lines, lines[1:])):
            if re.search(first, line) and re.search(second, behind):
                yield f"{path}:{n + 1} {line.strip()} {behind.strip()}"


def enums_and_answers():
    yield from lines_with(r"^\s*(pub(\(\w+\))? )?enum ")
    yield from lines_with(r"None => None|None => \{? ?return None|Err\((\w+)\) => Err\(\1\)|Some\((\w+)\) => Some\(|Ok\((\w+)\) => Ok\(")
    yield from pairs_of_lines(r"let .*else \{$", r"^\s*return (None|Err\()")
    yield from lines_with(r"if let Err\(")
    yield from lines_with(r"\[[01](u8)?; \w+\]; *// *mark|= \[0u8;")
    for fn in FUNCTIONS:
        if re.search(r"-> bool", fn.head) and "&mut" in fn.head:
            yield f"{fn.where()} answers bool of a change"


def tokens(fn):
    text = " ".join(fn.body)
    return re.findall(r"\w+|[^\w\s]", text)


def twins():
    units = [fn for fn in FUNCTIONS if len(tokens(fn)) >= 8]
    for i, a in enumerate(units):
        for b in units[i + 1:]:
            ta, tb = tokens(a), tokens(b)
            if min(len(ta), len(tb)) * 2 < max(len(ta), len(tb)):
                continue
            same = difflib.SequenceMatcher(None, ta, tb, autojunk=False).ratio()
            if same >= 0.8 and not ("tests" in str(a.path) and "#[test]" in a.head):
                yield f"{a.where()} | {b.where()} {same:.2f}"
    names = collections.defaultdict(list)
    for path, lines in FILES:
        for n, line in enumerate(lines):
            m = re.match(r"\s*(pub(\(\w+\))? )?struct (\w+)", line)
            if m:
                fields = []
                for row in lines[n + 1:]:
                    if row.strip() == "}":
                        break
                    m2 = re.match(r"\s*(?:pub(?:\(\w+\))? )?(\w+): (.*),$", row)
                    if m2 and not row.strip().startswith("ghost"):
                        fields.append(re.sub(r"u8|u16|u32|u64|usize|Node|Block", "T", m2.group(2)))
                names[tuple(fields)].append(f"{path}:{n + 1} struct {m.group(3)}")
    for shape, where in names.items():
        if len(where) > 1 and shape:
            yield " | ".join(where) + f" ({', '.join(shape)})"


def loops():
    yield from lines_with(r"^\s*(while|loop)\b|^\s*for .* in .*\.\.")
    yield from lines_with(r"\w+ = \w+\.wrapping_add\(1\);|\w+ \+= 1;")


def by_hand():
    yield from lines_with(r"^\s*impl(<.*>)? (PartialEq|Eq|PartialOrd|Ord|Clone|Copy|Debug|Display|fmt::Display|From<.*>|TryFrom<.*>|Entry)\b.* for ")
    yield from lines_with(r"fn (same\w*|number|to_bytes|from_bytes|at_least_as_strict|print_\w+|\w+_line)\b")
    for path, lines in FILES:
        for n, line in enumerate(lines):
            m = re.match(r"\s*(pub(\(\w+\))? )?(struct|enum) (\w+)", line)
            if m:
                derive = "".join(lines[max(0, n - 2):n])
                if "Clone" in derive and "PartialEq" not in derive:
                    yield f"{path}:{n + 1} {m.group(3)} {m.group(4)} without derived equality"
    yield from lines_with(r"let (\w+) = \w+(\.\w+)*\.\1;")


def facts():
    clauses = collections.defaultdict(list)
    for fn in FUNCTIONS:
        for clause in fn.clauses:
            text = re.sub(r"^(requires|ensures)( \w+)? \{", "{", clause)
            clauses[text].append(fn.where())
    for text, where in sorted(clauses.items(), key=lambda e: -len(e[1])):
        if len(where) >= 3:
            yield f"{len(where)} functions: {text[:150]} ({', '.join(w.split()[-1] for w in where)})"
    groups = collections.defaultdict(set)
    for fn in FUNCTIONS:
        found = sorted(set(f"{name}: {kind}" for name, kind in fn.parameters()))
        for i, a in enumerate(found):
            for b in found[i + 1:]:
                groups[(a, b)].add(fn.where())
    for pair, where in sorted(groups.items(), key=lambda e: -len(e[1])):
        if len(where) >= 3:
            yield f"{len(where)} functions take {pair[0]} and {pair[1]} ({', '.join(sorted(w.split()[-1] for w in where))})"


def memory():
    yield from lines_with(r"^\s*(pub(\(\w+\))? )?(count|len|used): usize,")
    yield from lines_with(r"^(pub )?const \w+: \[")
    yield from pairs_of_lines(r"^(?!\s*ghost).*: \[.*; \w+\],$", r": \[.*; \w+\],$")
    yield from lines_with(r"fn \w+.*used: usize")


def switches():
    yield from lines_with(r"match .*phase|Phase::\w+(\(\w+\))? => |: fn\(")


def proofs():
    for crate in sorted(p.name for p in (ROOT / "crates").iterdir() if p.is_dir()):
        files = list((ROOT / "crates" / crate / "proofs").glob("**/*.antt"))
        count = sum(len(f.read_text().split("\n")) - 1 for f in files)
        yield f"{crate}: {count} lines in {len(files)} files"


POINTS = {
    "1": ("own enums, flags and re-wrapped answers", enums_and_answers),
    "2": ("twins", twins),
    "3": ("loops over a number", loops),
    "4": ("equality, order, conversion and printing by hand", by_hand),
    "5": ("facts in three contracts or more, parameters that travel together", facts),
    "6": ("lengths beside, parallel arrays", memory),
    "7": ("switches on a step", switches),
    "8": ("proofs", proofs),
}

for key, (title, count) in POINTS.items():
    if ONLY in (None, key):
        found = list(count())
        print(f"== {key}. {title}")
        for line in found:
            print("   " + line)
        print(f"   {len(found)} found")
