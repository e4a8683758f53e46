#!/usr/bin/env python3
"""Respells the repository's own names: definitions and lemmas in snake case, types and modules in camel case.

Run once, at the top of the repository, after the toolchain's own script /opt/rattle/port/port.py. It goes by text: it collects the names that the files of specs/
and proofs/ declare and the names of the sources that have an underscore (which proofs once wrote with a dash), and writes each of them
anew wherever it stands as a whole word in specs/, proofs/, the clauses of src/ and the edits that must fail.
Names that fall together are printed; nothing else is.
"""
import re
import sys
from pathlib import Path

TOP = Path(sys.argv[1] if len(sys.argv) > 1 else ".")
CRATES = sorted((TOP / "crates").iterdir())
WORD = re.compile(r"[^\s(){}\[\];,.«»|:]+")
DECLARES = re.compile(r"^\s*(?:pub\s+|abbrev\s+|unfoldable\s+)*(?:data\s+|record\s+|ruleset\s+)?([^\s:(){}«»]+)\s*(?:[({].*)?:(?:\s|$)")


def snake(name):
    """The name in snake case, or in camel case where it begins like a type."""
    if "-" in name and name[0].isupper():
        return "".join(part[:1].upper() + part[1:] for part in name.split("-"))
    if name[0].isupper():
        return name
    name = name.replace("-", "_")
    return re.sub(r"(?<=[a-z0-9])([A-Z])", lambda m: "_" + m.group(1).lower(), name)


def is_name(name):
    return re.fullmatch(r"[A-Za-z][A-Za-z0-9'₀-₉]*(?:[-_][A-Za-z0-9'₀-₉]+)*", name) is not None


def antt_files(crate):
    for folder in ("specs", "proofs"):
        if (crate / folder).is_dir():
            yield from sorted((crate / folder).rglob("*.antt"))


def declared():
    """The names that specs/ and proofs/ declare, but for the goals that answers are given to."""
    names = set()
    for crate in CRATES:
        for file in antt_files(crate):
            for line in file.read_text().split("\n"):
                if line.lstrip().startswith("--") or re.search(r":\s*(goal|need)\.", line):
                    continue
                found = DECLARES.match(line)
                if found and is_name(found.group(1)):
                    names.add(found.group(1))
                names.update(name for name in re.findall(r"\b(?:let|as) ([A-Za-z][^\s:=,}]*)", line) if is_name(name))
                left = re.match(r"[A-Za-z][^=]*(?= =(?:\s|$))", line)
                if left and ":" not in left.group(0):
                    names.update(name for name in left.group(0).split()[1:] if is_name(name))
    return names


def of_sources():
    """The names of the sources that have an underscore, as proofs wrote them."""
    names = {}
    for crate in CRATES:
        for file in sorted((crate / "src").rglob("*.rt")):
            for name in re.findall(r"\b[a-z][a-z0-9]*(?:_[a-z0-9]+)+\b", file.read_text()):
                names[name.replace("_", "-")] = name
    return names


def of_libraries():
    """The names that files import from elsewhere."""
    own = tuple(f"Rattle.{crate.name}." for crate in CRATES)
    names = {"the-impl"}
    for crate in CRATES:
        for file in antt_files(crate):
            for module, imported in re.findall(r"^use ([^\s{]+)\{([^}]*)\}", file.read_text(), re.M):
                if not module.startswith(own):
                    names.update(re.split(r",\s*|\s+as\s+", imported.strip()))
    return names


KEPT = of_libraries()
names = {name: snake(name) for name in declared() if snake(name) != name and name not in KEPT}
for old, new in of_sources().items():
    if old not in KEPT:
        names.setdefault(old, new)


SOURCES = of_sources()


def joined(word):
    """A name that is made of names: the toolchain's own words in it, and each run of its parts that is a name of the sources, respelled."""
    word = re.sub(r"^(overflow|nonzero|slice|offset)-(?=[a-z]+-)", r"\1_", word)
    word = re.sub(r"^invariant-of-", "invariant_of-", word)
    word = re.sub(r"(^|-)in-(default|err|ok)(?=-|$)", r"\1in_\2", word)
    parts = word.split("-")
    made = []
    while parts:
        length = next((n for n in range(len(parts), 1, -1) if "-".join(parts[:n]) in SOURCES), 1)
        made.append(SOURCES["-".join(parts[:length])] if length > 1 else parts[0])
        parts = parts[length:]
    return "-".join(made)


def respelled(text, seen, made_names=False):
    def one(match):
        word = match.group(0)
        new = names.get(word)
        if new is None and made_names and is_name(word) and word not in KEPT and joined(word) != word:
            new = joined(word)
        if new is None:
            seen.setdefault(word, set()).add(word)
            return word
        seen.setdefault(new, set()).add(word)
        return new

    return WORD.sub(one, text)


def ghost_lines(text):
    """The lines of a source that clauses and ghost items stand on, by number."""
    depth = 0
    for number, line in enumerate(text.split("\n")):
        starts = re.match(r"\s*(?:pub )?(?:ghost\b|requires\b|ensures\b)", line) is not None
        if starts or depth > 0:
            depth += line.count("{") - line.count("}")
            yield number


for crate in CRATES:
    for file in list(antt_files(crate)) + sorted((crate / "must-fail").glob("*.edit")):
        seen = {}
        old = file.read_text()
        new = respelled(old, seen, file.parts[-2] != "specs" and file.suffix == ".antt")
        if new != old:
            file.write_text(new)
        for name, olds in seen.items():
            if len(olds) > 1:
                print(f"{file}: {', '.join(sorted(olds))} are now {name}")
    for file in sorted((crate / "src").rglob("*.rt")):
        seen = {}
        lines = file.read_text().split("\n")
        for number in ghost_lines("\n".join(lines)):
            lines[number] = respelled(lines[number], seen)
        if "\n".join(lines) != file.read_text():
            file.write_text("\n".join(lines))
        for name, olds in seen.items():
            if len(olds) > 1:
                print(f"{file}: {', '.join(sorted(olds))} are now {name}")
