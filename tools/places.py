#!/usr/bin/env python3
"""Lists, point by point, the places in src/ that docs/DESIGN-PASS.md counts.

    python3 tools/places.py [FOLDER]     # the number of places of each pattern, then each place

FOLDER is a checkout (this one by default). A pattern finds places to look at; the page says which of them are kept, and why.
"""
import collections
import pathlib
import re
import sys

ROOT = pathlib.Path(sys.argv[1]) if len(sys.argv) > 1 else pathlib.Path(__file__).resolve().parent.parent


def sources():
    for path in sorted(ROOT.glob("crates/*/src/**/*.rt")):
        yield str(path.relative_to(ROOT / "crates")), path.read_text()


def lines_of(pattern, strip_tests=False):
    found = []
    for name, text in sources():
        if strip_tests:
            text = text.split("#[cfg(test)]")[0]
        for number, line in enumerate(text.splitlines(), 1):
            code = line.split("//")[0]
            if re.search(pattern, code):
                found.append(f"{name}:{number}: {line.strip()}")
    return found


def spans_of(pattern, strip_tests=False):
    """Matches that may go over several lines."""
    found = []
    for name, text in sources():
        if strip_tests:
            text = text.split("#[cfg(test)]")[0]
        for match in re.finditer(pattern, text):
            number = text.count("\n", 0, match.start()) + 1
            found.append(f"{name}:{number}: {' '.join(match.group(0).split())[:100]}")
    return found


def functions():
    """Each function outside tests: its place, its name, its parameters and its clauses."""
    head = re.compile(r"^( *)(?:pub(?:\([a-z]+\))? )?fn ([a-z_0-9]+)(?:<[^>(]*>)?\(", re.M)
    for name, text in sources():
        text = text.split("#[cfg(test)]")[0]
        for match in head.finditer(text):
            depth, at = 1, match.end()
            while depth:
                depth += {"(": 1, ")": -1}.get(text[at], 0)
                at += 1
            parameters = [p.strip() for p in re.split(r",(?![^<(]*[>)])", text[match.end():at - 1]) if p.strip()]
            rest = text[at:]
            end = re.search(r"^" + match.group(1) + r"\{|;", rest, re.M)
            clauses = re.findall(r"(?:requires|ensures) ?([a-z_0-9]*) \{ (.*) \}$", rest[:end.start() if end else 0], re.M)
            yield f"{name}:{text.count(chr(10), 0, match.start()) + 1}", match.group(2), parameters, clauses


def repeated_facts():
    """Facts about a value that stand in the contracts of three or more functions."""
    where = collections.defaultdict(list)
    for place, function, _, clauses in functions():
        for label, fact in clauses:
            for part in re.split(r" × ", fact):
                fact = part.strip().strip("()")
                where[(place.split("/")[0], fact)].append((place, function))
    return [
        f"{crate}: {fact} | " + ", ".join(f for _, f in places)
        for (crate, fact), places in sorted(where.items())
        if len({p for p, _ in places}) >= 3
    ]


def travelling():
    """Sets of three or more parameters that stand together in three or more functions of a crate."""
    by_crate = collections.defaultdict(list)
    for place, function, parameters, _ in functions():
        names = frozenset(p.split(":")[0].strip() for p in parameters if ":" in p)
        by_crate[place.split("/")[0]].append((function, names))
    found = []
    for crate, all_of in sorted(by_crate.items()):
        groups = set()
        for i, (_, a) in enumerate(all_of):
            for _, b in all_of[i + 1:]:
                if len(a & b) >= 3:
                    groups.add(a & b)
        for group in groups:
            having = [f for f, names in all_of if group <= names]
            if len(having) >= 3 and not any(group < other and len([1 for _, n in all_of if other <= n]) == len(having) for other in groups):
                found.append(f"{crate}: {', '.join(sorted(group))} | {', '.join(having)}")
    return sorted(found)


def without_comparison():
    """Plain types (Clone, Copy) that derive no comparison."""
    return spans_of(r"#\[derive\(Clone, Copy\)\]\n(?:pub(?:\([a-z]+\))? )?(?:struct|enum) \w+")


def same_names():
    """Free functions and methods of one name in several files, but for makers, readers of numbers and what a trait asks for."""
    of_traits = set()
    for _, text in sources():
        for block in re.findall(r"^(?:pub )?trait \w+.*?^\}|^impl(?:<[^>]*>)? [^\n{]+ for .*?^\}", text, re.M | re.S):
            of_traits.update(re.findall(r"\bfn (\w+)", block))
    where = collections.defaultdict(list)
    for place, function, _, _ in functions():
        if function not in of_traits | {"new", "number", "byte", "main", "run"}:
            where[function].append(place)
    return [f"{name}: {', '.join(places)}" for name, places in sorted(where.items()) if len(places) >= 2]


def two_cases():
    """Own enums of just two cases of which one at least carries data: the shape of Option and Result."""
    found = []
    for name, text in sources():
        text = re.sub(r"//.*", "", text.split("#[cfg(test)]")[0])
        for match in re.finditer(r"^(?:pub(?:\([a-z]+\))? )?enum (\w+)[^{]*\{(.*?)^\}", text, re.M | re.S):
            cases = re.findall(r"^    (\w+)\s*([({]?)", match.group(2), re.M)
            if len(cases) == 2 and any(data for _, data in cases):
                number = text.count("\n", 0, match.start()) + 1
                found.append(f"{name}:{number}: {match.group(1)} of {cases[0][0]} and {cases[1][0]}")
    return found


def answers():
    """Answers and lemmas in proofs/, by crate."""
    count = collections.Counter()
    for path in ROOT.glob("crates/*/proofs/**/*.antt"):
        crate = path.relative_to(ROOT / "crates").parts[0]
        kind = "answers" if path.name == "Answers.antt" else "invariants" if path.name == "Invariants.antt" else "lemmas"
        count[(crate, kind)] += len(re.findall(r"^(?:abbrev )?pub [a-z]", path.read_text(), re.M))
    return [f"{crate}: {kind} {number}" for (crate, kind), number in sorted(count.items())]


POINTS = [
    ("1a own enums of two cases, one with data", two_cases),
    ("1b a match that passes None or Err on, or makes a flag an Option", lambda: spans_of(
        r"None => None\b|None => return None\b|Err\(\w+\) => Err\([^)\n]*|(?:else|\} else) \{\s*None\s*\}|else \{\s*return (?:None|Ok\(None\));\s*\}", True)),
    ("1c unreachable arms", lambda: lines_of(r"unreachable\(\)|unreachable!", True)),
    ("1d a bool that says whether it went well", lambda: spans_of(r"fn \w+(?:<[^(]*>)?\(\s*&mut self[^{]*?-> bool", True)),
    ("1e numbers for kinds or refusals", lambda: lines_of(r"\b(kind|code|state|mode): (u|i)\d+|\blet code\b|-> u8$", True)),
    ("2a functions of one name", same_names),
    ("2b functions named by a size or a part of a pair", lambda: lines_of(r"fn (two|four|eight)_\w+|fn \w+_(x|y)\b|fn next_(number|signed)|fn read_(kind|mode)", True)),
    ("2c conversions between refusals, an impl for each", lambda: lines_of(r"^impl From<\w+> for \w+", True)),
    ("3a while and loop", lambda: lines_of(r"^\s*(while|loop)\b", True)),
    ("3b for over indices", lambda: lines_of(r"\bfor \w+ in [\w(]+\.\.|\.enumerate\(\)", True)),
    ("3c counting by hand", lambda: lines_of(r"\b\w+ [+-]= ", True)),
    ("4a plain types without comparison", without_comparison),
    ("4b comparison by matches! or by cases", lambda: lines_of(r"matches!\(", True)),
    ("4c conversions by a function", lambda: lines_of(r"fn (read|from_\w+|to_\w+|as_\w+|read_\w+|get|number)\b", True)),
    ("4d taken apart to be printed", lambda: spans_of(r"let number = refusal\.number\(\)|let code = refusal\.number\(\)|let Evidence \{|let Case \{", True)),
    ("5a facts in three or more contracts of a crate", repeated_facts),
    ("5b parameters that travel together", travelling),
    ("6a fixed arrays in types and parameters", lambda: lines_of(r": (&mut |&)?\[\w+; \w+\]", True)),
    ("6b a list in order searched from its start", lambda: spans_of(r"for \w+ in &[^{]*\{\s*if [^{]*<", True)),
    ("7a enums that say which step to run", lambda: lines_of(r"enum (Act|Step|Turn)\b", True)),
    ("7b function values", lambda: lines_of(r"\bdyn\b|: fn\(|\[fn\(", True)),
    ("8 answers, invariants and lemmas by crate", answers),
]

if __name__ == "__main__":
    found = [(title, find()) for title, find in POINTS]
    for title, places in found:
        print(f"{len(places):4}  {title}")
    for title, places in found:
        print(f"\n== {title}: {len(places)}")
        for place in places:
            print("  " + place)
