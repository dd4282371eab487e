"""The functions of the sources, for the scripts beside this file. They go by the layout that the gate asks for (`rt fmt`)."""
import pathlib
import re
import sys

TOP = pathlib.Path(__file__).resolve().parent.parent
START = re.compile(r'^(\s*)(pub )?(?:pub\(\w+\) )?(?:extern "C" )?fn (\w+)(?:<(.*)>)?\(')
CLAUSE = re.compile(r" ?(requires|ensures)(?: (\w+))? \{ ")


class Function:
    """Name, parameters with their types, result, clauses and body; `head` is all before the body in one line, `at` and `body_at` count lines from 0."""

    def __init__(self, path, name, owner, public, at, lines):
        opening = next(k for k, line in enumerate(lines) if line.endswith("{"))
        self.path, self.name, self.public, self.at, self.lines = path, name, public, at, lines
        self.owner = owner  # of a method, what a proof calls its impl; else empty
        self.body_at, self.body = at + opening + 1, lines[opening + 1 : -1]
        self.head = " ".join(line.strip() for line in lines[: opening + 1])
        found = re.search(r"fn \w+(?:<(.*?)>)?\((.*?)\)(?: -> (.*?))?(?=(?: (?:requires|ensures) (?:\w+ )?\{ | ?\{$))", self.head)
        self.types = [part.split(":")[0].strip().removeprefix("const ") for part in parted(found[1] or "")]
        parameters = [part.strip().removeprefix("mut ") for part in parted(found[2])]
        self.parameters = dict(part.split(": ", 1) if ": " in part else ("self", part) for part in parameters)
        self.result, self.clauses = found[3], list(clauses(self, self.head[found.end() : -1]))

    def file(self):
        return self.path.relative_to(TOP).as_posix()

    def said(self, kind):
        """The texts of its clauses of a kind."""
        return [text for its, text in self.clauses if its == kind]


def parted(text, brackets=("([{<", ")]}>")):
    """The parts between commas that stand in no brackets."""
    parts, depth = [""], 0
    for letter in text:
        depth += (letter in brackets[0]) - (letter in brackets[1])
        if letter == "," and not depth:
            parts.append("")
        else:
            parts[-1] += letter
    return [part for part in parts if part.strip()]


def clauses(function, text):
    """Kind and text of each clause; nothing else stands between signature and body."""
    at = 0
    while text[at:].strip():
        found = CLAUSE.match(text, at)
        if found is None:
            sys.exit(f"{function.file()}:{function.at + 1}: {function.name}: no clause is read in '{text[at:].strip()}'")
        depth, end = 1, found.end()
        while depth:
            if end == len(text):
                sys.exit(f"{function.file()}:{function.at + 1}: {function.name}: a clause has no end")
            depth += (text[end] == "{") - (text[end] == "}")
            end += 1
        yield found[1], text[found.end() : end - 1].strip()
        at = end


def functions(path):
    """The functions of a file: one ends with the first brace as deep as its `fn`."""
    lines = path.read_text().split("\n")
    for at, line in enumerate(lines):
        start = START.match(line)
        if start and not is_declared(lines[at:]):
            end = next((k for k in range(at, len(lines)) if lines[k] == start[1] + "}"), None)
            if end is None:
                sys.exit(f"{path.relative_to(TOP)}:{at + 1}: no end of {start[3]} is found")
            yield Function(path, start[3], impl_around(lines[:at]) if start[1] else "", bool(start[2]), at, lines[at : end + 1])


def is_declared(lines):
    """Whether the function that begins here has no body, as a trait declares it."""
    return next(line for line in lines if line.endswith(("{", ";"))).endswith(";")


def declared(path):
    """The functions of a file that a trait declares without a body, each with an empty one."""
    lines = path.read_text().split("\n")
    for at, line in enumerate(lines):
        start = START.match(line)
        if start and is_declared(lines[at:]):
            end = next(k for k in range(at, len(lines)) if lines[k].endswith(";"))
            head = [*lines[at:end], lines[end].removesuffix(";") + " {"]
            yield Function(path, start[3], impl_around(lines[:at]), False, at, [*head, start[1] + "}"])


def impl_around(lines):
    """What a proof calls the impl, or the trait, that these lines begin: the words of the type, the trait and the trait's arguments, but for the impl's own
    parameters."""
    head = next((line for line in reversed(lines) if re.match(r"(?!where\b)\w", line)), "")
    found = re.match(r"(?:pub )?(?:impl|trait)(?:<(.*?)>)? (?:(\S+) for )?([^{]+)", head)
    if found is None:
        return ""
    own = set(re.findall(r"\w+", found[1] or ""))
    words = re.findall(r"(?<!')\b\w+", f"{found[3]} {found[2] or ''}")
    return "".join(word[0].upper() + word[1:] for word in words if word not in own)


def imported(text, word="use"):
    """The whole path of each name that the `use` lines of a text bring in, one by one."""
    for tree in re.findall(rf"(?ms)^{word} ([^;]+);", text):
        yield from paths(" ".join(tree.split()))


def paths(tree):
    head, brace, rest = tree.partition("{")
    if not brace:
        yield head.strip()
        return
    for part in parted(rest.rstrip()[:-1], "{}"):
        yield from paths(head + part.strip())
