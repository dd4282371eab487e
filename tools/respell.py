#!/usr/bin/env python3
"""Brings the repository's own definitions, fields, constructors and lemmas to today's spelling: words in snake case, and a dash only between two names.

    tools/respell.py            rewrites crates/ in place: once, after the kit's port.py, on what it wrote
    tools/respell.py --list     prints each old name and its new one

A name that specs/ declares loses its dashes; what a file named Answers.antt declares isn't looked at, nor an operator. A lemma keeps a dash where it
joins two names that are declared (`count-append`). Names of the library, of the functions in src/ and of goals stay as they are. It stops where two
names would fall together."""
import re
import subprocess
import sys
from pathlib import Path

TOP = Path(__file__).resolve().parent.parent
KIT = Path(subprocess.run(["rt", "doc"], capture_output=True, text=True, check=True).stdout.strip()).parent / "rattle"
TOKEN = re.compile(r"(?<![\w'\-?◌])[A-Za-z_][\w'?]*(?:-[\w'?]+)+(?![\w'\-?])")
# What is declared: a line `[words] names :`, or `record NAME` and the like.
DECLARED = re.compile(r"^\s*(?:(?:pub|abbrev|unfoldable|private|opaque)\s+)*((?:[A-Za-z][\w'?\-₀-₉]*\s+)*[A-Za-z][\w'?\-₀-₉]*)\s*:(?:\s|$)")
# Words of the library that a lemma of ours is named for.
LIBRARY = {
    "append", "length", "take", "drop", "map", "replicate", "eqb", "leb", "ltb", "max", "min", "cond", "not", "and", "or",
    "get_or", "set", "reverse", "bit_and", "bit_or",
}


def comment_from(line):
    at = re.search(r"(?:^|\s)--(?:\s|$)", line)
    return at.start() if at else len(line)


def own_files(suffix):
    return sorted(p for p in (TOP / "crates").rglob(f"*{suffix}") if "out" not in p.relative_to(TOP).parts)


def declared(path):
    found = set()
    for line in path.read_text().splitlines():
        line = line[: comment_from(line)]
        its = DECLARED.match(line)
        if its:
            found |= {name for name in its[1].split() if "-" in name}
    return found


def library_names():
    found = set()
    for path in KIT.rglob("*.antt"):
        for line in path.read_text(errors="replace").splitlines():
            its = DECLARED.match(line[: comment_from(line)])
            if its:
                found |= {name for name in its[1].split() if "-" in name}
    return found


def is_walk(path):
    return path.name in ("Proof.antt", "Answers.antt", "Invariants.antt")


def lemma_name(name, definitions):
    """The name in parts, the longest that are declared first: a dash between two that are, and '_' before and behind a plain word."""
    parts, words = [], name.split("-")
    while words:
        for n in range(len(words), 0, -1):
            part = "_".join(words[:n])
            if part in definitions or n == 1:
                parts.append((part, part in definitions))
                words = words[n:]
                break
    text, named = parts[0]
    for part, its in parts[1:]:
        text += ("-" if named and its else "_") + part
        named = its
    return text


def camel(name):
    return "".join(word[0].upper() + word[1:] for word in name.split("-"))


def respelled():
    specs, lemmas = set(), set()
    for path in own_files(".antt"):
        if is_walk(path):
            continue
        (specs if "specs" in path.parts else lemmas).update(declared(path))
    library = library_names()
    definitions = {name.replace("-", "_") for name in specs} | LIBRARY
    for path in own_files(".antt"):
        if "specs" in path.parts and not is_walk(path):
            for line in path.read_text().splitlines():
                its = DECLARED.match(line[: comment_from(line)])
                if its:
                    definitions |= set(its[1].split()) - {"pub", "abbrev", "unfoldable"}
    new = {name: camel(name) if name[0].isupper() else name.replace("-", "_") for name in specs}
    new.update({name: camel(name) if name[0].isupper() else lemma_name(name, definitions) for name in lemmas - specs if name not in library})
    return {old: its for old, its in new.items() if old != its}, specs & library


def fields_of():
    """The fields of our own records, which a projection may name."""
    found = set()
    for path in own_files(".antt"):
        if is_walk(path):
            continue
        inside = False
        for line in path.read_text().splitlines():
            if re.match(r"^\s*(pub )?record\b", line):
                inside = True
            elif line and not line.startswith(" "):
                inside = False
            its = DECLARED.match(line[: comment_from(line)])
            if inside and its:
                found |= {name for name in its[1].split() if "-" in name}
    return found


def turned(text, new, fields, walk):
    def one(its):
        name, before = its[0], text[max(0, its.start() - 5) : its.start()]
        if name not in new:
            return name
        if before.endswith("."):
            if before.endswith("tie.") or before.endswith("goal."):
                return name
            if walk and name not in fields:
                return name
        return new[name]

    return TOKEN.sub(one, text)


def turn_lines(path, new, fields):
    walk, out = is_walk(path), []
    for line in path.read_text().split("\n"):
        at = comment_from(line)
        out.append(turned(line[:at], new, fields, walk) + line[at:])
    return "\n".join(out)


def turn_rust(path, new):
    """Clauses, `ghost` items and nothing else: a comment or a string may have a dash between words."""
    out, depth, clause = [], 0, False
    for line in path.read_text().split("\n"):
        code = line.split("//")[0]
        starts = re.match(r"^\s*(ghost\b|requires\b|ensures\b)", code)
        if starts or clause:
            out.append(turned(code, new, set(), False) + line[len(code) :])
            depth += code.count("{") - code.count("}")
            clause = depth > 0
            if not clause:
                depth = 0
        else:
            out.append(line)
    return "\n".join(out)


def turn_edit(path, new):
    text = path.read_text()
    in_specs, out = False, []
    for line in text.split("\n"):
        if line.startswith("file:"):
            in_specs = "specs/" in line
        out.append(turned(line, new, set(), False) if in_specs and line[:4] in ("old:", "new:") else line)
    return "\n".join(out)


def fall_together(new):
    """New names that two old ones share, or that stand already in a file that had the old one."""
    wrong = []
    by_new = {}
    for old, its in new.items():
        by_new.setdefault(its, []).append(old)
    wrong += [f"{' and '.join(olds)} both become {its}" for its, olds in sorted(by_new.items()) if len(olds) > 1]
    word = re.compile(r"(?<![\w'\-?◌])[A-Za-z_][\w'?\-]*")
    for path in own_files(".antt") + own_files(".rt"):
        text = "\n".join(line[: comment_from(line)].split("//")[0] for line in path.read_text().split("\n"))
        there = set() if is_walk(path) else set(word.findall(text))
        for old in sorted(there & set(new)):
            if new[old] in there and path.suffix == ".antt":
                wrong.append(f"{path.relative_to(TOP)}: {old} becomes {new[old]}, which stands there")
        if path.suffix == ".rt":
            parameters = set(re.findall(r"\b(\w+): ", text))
            wrong += [f"{path.relative_to(TOP)}: {old} becomes {new[old]}, a parameter or field there" for old in sorted(there & set(new)) if new[old] in parameters]
    return wrong


def main(argv):
    new, shared = respelled()
    if argv == ["--list"]:
        for old, its in sorted(new.items()):
            print(f"{old} {its}")
        print("\n".join(f"as in the library: {name}" for name in sorted(shared)), file=sys.stderr)
        return 0
    wrong = fall_together(new)
    if wrong:
        print("\n".join(wrong))
        return 1
    fields = fields_of()
    for path in own_files(".antt"):
        path.write_text(turn_lines(path, new, fields))
    for path in own_files(".rt"):
        path.write_text(turn_rust(path, new))
    for path in own_files(".edit"):
        path.write_text(turn_edit(path, new))
    print(f"{len(new)} names")
    return 0


if __name__ == "__main__":
    sys.exit(main(sys.argv[1:]))
