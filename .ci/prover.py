"""What the prover says of edited sources, for the scripts beside this file.

Edits go through `rt must-fail` and `rt ci`, which try each over what the crate's own check proved. Other changes go through `rt check` in a copy of
the crates, which begins with what checks in other copies on this machine have proved, so that the prover looks again only at what a change touches.
That decides a change, and is no verdict on the crate: the verdict is `rt ci`'s."""
import concurrent.futures
import os
import pathlib
import queue
import re
import shutil
import subprocess
import sys
import tempfile

from sources import TOP, functions

# What the prover says of a fact that its own search or arithmetic doesn't find to hold, and of one that isn't what the proof shows.
NOT_FOUND = ("it is not proved that", "does not follow from what it read", "no proof of", "does not close", "list the missing equation")
NOT_SHOWN = ("expected type", "the two types", "the two sides", "the two values", "give a proof of that as the last argument")
# No facts: a loop's invariant or measure that no longer fits its variables, and two types that are only places in the walk through a function.
UNFIT = re.compile(r"`(?:invariant|decreases)-[^`]*`:|(?s:.*)expected type `(?:tie\.|\S*\.(?:Tie|Lts)\.)[\w-]+`")
# A proof that names what the code no longer has.
NAME_GONE = re.compile(r"has no field|is not in scope|has no `|was not admitted")
# What a function leaves, and what a turn of its loop does.
LEFT = re.compile(r"`(?:returns|loop-)|.*\(`(?:returns|loop-)")
# An error, in a file of proofs or definitions or where the prover goes through a function by itself.
ERROR = re.compile(r"(?m)^(?:note: )?(?:\./)?(proofs|specs|src)/(\S+?):(\d+):\d+: (?:error: )?((?:.*)(?:\n  .*)*)")


class Said:
    """What the prover said of a crate."""

    def __init__(self, crate, text, status):
        self.crate, self.text, self.status = crate, text, status

    def proved(self):
        return self.status == 0 and re.search(r"(?m)^logic=proved ", self.text) is not None

    def refused(self):
        return self.status == 1 and re.search(r"(?m)^logic=not-proved", self.text) is not None

    def errors(self):
        """Each error with the path of the function or the file that it is in, as in `row::push` or `Hold.antt`."""
        return [(where, said) for where, said in map(lambda found: located(self.crate, found), ERROR.finditer(self.text)) if where]

    def first_line(self):
        lines = [line for line in self.text.splitlines() if "error" in line] or self.text.splitlines()
        return lines[0][:300] if lines else "nothing was said"


def located(crate, found):
    """Where an error is, and what it says."""
    folder, file, line, said = found.groups()
    if folder == "src":
        path, at = TOP / "crates" / crate / folder / file, int(line) - 1
        lines = path.read_text().split("\n")
        # a function begins with its attributes
        while lines[at].lstrip().startswith("#["):
            at += 1
        inside = functions_on_lines(crate, path, at, at)
        return (sorted(inside)[0] if len(inside) == 1 else None), said
    return re.sub(r"/(?:Answers|Invariants|Proof)\.antt$", "", file).replace("/", "::"), said


def is_about_a_fact(error):
    return any(word in error for word in NOT_FOUND) or any(word in error for word in NOT_SHOWN) and not UNFIT.match(error)


def is_unanswered(crate, where, what):
    """Whether this is a goal to which the function's proof file has no answer, though it has answers to others."""
    file = TOP / "crates" / crate / "proofs" / where.replace("::", "/") / "Answers.antt"
    goal = re.search(r"\(`([\w-]+)`\)", what)
    return what.startswith("it is not proved that") and file.is_file() and not (goal and re.search(rf"(?m)^pub {goal[1]} :", file.read_text()))


def telling(crate, errors):
    """Of the errors of some functions, with where they are, those that tell something. Where a proof names what isn't there any more, a goal without an
    answer may only have another name than before."""
    gone = {where for where, what in errors if NAME_GONE.search(what)}
    return [(where, what) for where, what in errors if not NAME_GONE.search(what) and not (where in gone and is_unanswered(crate, where, what))]


def failing_fact(errors):
    """Of the errors of one function, the one about a fact that makes the first one count, or nothing where the first is a misfit. Stricter than for
    one error: what isn't shown of something that is asked on the way might still hold, and counts where what is left fails as well."""
    if any(word in errors[0] for word in NOT_FOUND):
        return errors[0]
    if not is_about_a_fact(errors[0]):
        return None
    return next((error for error in errors if LEFT.match(error) and is_about_a_fact(error)), None)


def of_crate(crate):
    """The crate's functions by their path, as in `row::push`, and of a method `row::Row::push`."""
    found = {}
    for path in sorted((TOP / "crates" / crate / "src").glob("*.rt")):
        module = "" if path.stem in ("lib", "main") else f"{path.stem}::"
        found.update({module + (function.owner and function.owner + "::") + function.name: function for function in functions(path)})
    return found


def functions_on_lines(crate, path, first, last):
    """The functions on these lines of a file; for a constant, those that name it."""
    known = of_crate(crate)
    inside = {name for name, its in known.items() if its.path == path and its.at <= last and first < its.at + len(its.lines)}
    if inside:
        return inside
    constants = re.findall(r"\bconst (\w+)", "\n".join(path.read_text().split("\n")[first : last + 1]))
    return {name for name, its in known.items() if any(re.search(rf"\b{constant}\b", "\n".join(its.lines)) for constant in constants)}


# ---- copies of the crates


class Workplace:
    """A copy of the sources, in which something can be changed."""

    def __init__(self, folder):
        self.top = pathlib.Path(folder)
        shutil.copytree(TOP / "crates", self.top / "crates", ignore=lambda at, names: {"out"} & set(names) if pathlib.Path(at).parent == TOP / "crates" else ())
        for file in ("crates.txt", "HANDLES"):
            if (TOP / file).is_file():
                shutil.copy(TOP / file, self.top)

    def path(self, crate, file):
        return self.top / "crates" / crate / file

    def run(self, crate):
        ran = subprocess.run(["rt", "check"], cwd=self.top / "crates" / crate, capture_output=True, text=True)
        return Said(crate, ran.stdout + ran.stderr, ran.returncode)

    def check(self, crate, files):
        """The crate with these texts in the place of its files; the copy is left as it was."""
        before = {self.path(crate, file): self.path(crate, file).read_text() for file in files}
        for file, text in files.items():
            self.path(crate, file).write_text(text)
        said = self.run(crate)
        for path, text in before.items():
            path.write_text(text)
        return said

    def control(self, crate):
        """What is wrong with a crate as it stands: it has to be proved. Nothing where all is well."""
        said = self.check(crate, {})
        return None if said.proved() else f"{crate}: the sources as they stand aren't proved: {said.first_line()}"


def proved_now(crates):
    """Has rt prove what has changed since it was last proved, so that copies begin with that."""
    for crate in crates:
        ran = subprocess.run(["rt", "check"], cwd=TOP / "crates" / crate, capture_output=True, text=True)
        if ran.returncode != 0:
            sys.exit(f"{crate} isn't proved as it stands:\n" + "\n".join((ran.stdout + ran.stderr).splitlines()[-20:]))


def in_workplaces(work, items):
    """Does the work for each item, as many at a time as there are processors, each in a workplace of its own; in the items' order."""
    free = queue.Queue()
    count = max(1, min(os.cpu_count() or 1, len(items)))

    def one(item):
        place = free.get()
        try:
            return work(place, item)
        finally:
            free.put(place)

    with tempfile.TemporaryDirectory() as folder, concurrent.futures.ThreadPoolExecutor(count) as pool:
        for number in range(count):
            top = pathlib.Path(folder) / str(number)
            top.mkdir()
            free.put(Workplace(top))
        yield from pool.map(one, items)
