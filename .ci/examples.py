"""The examples of .ci/examples.txt: the records of each, what a program gives for them, and where that isn't what is expected."""
import copy
import re

from layout import ANSWER, CALLS, MARK, RECORD, REPORT, TOP, number, numbers, value

FILE = TOP / ".ci/examples.txt"
TOLD = ["soundness", *REPORT]

# ---- the file


class Step:
    """A record, the line that it makes, and for a call the numbers of its report and fields of the image after it, by name."""

    def __init__(self, text):
        record, expected = text.split("->")
        self.text, self.record = " ".join(record.split()), record_of(record.split())
        self.line, *others = [part.strip() for part in expected.split(",")]
        self.is_call, self.report, self.fields = not self.line.startswith("bad record"), [], {}
        if self.is_call:
            if len(self.record) != RECORD:
                raise ValueError(f"no whole record: {self.text}")
            next_wake_up, *fields = others
            self.report = [*map(int, self.line.split()), int(next_wake_up.removeprefix("next "))]
            self.fields = {name: int(n, 0) for name, n in (field.split(" is ") for field in fields)}

    def case(self, image):
        """The call on an image, as second/README.md has cases."""
        return number(len(image)) + image + number(self.record[2]) + number(self.record[3]) + self.record[4:]

    def expected(self):
        """What an answer must say, by name: the table was sound, the report, and the fields."""
        return {**dict(zip(TOLD, [0, *self.report])), **self.fields}

    def changed(self):
        """The step with one expectation changed, for each of them."""
        for found in re.finditer(r"\d+", self.line):
            other = copy.copy(self)
            other.line = self.line[: found.start()] + str(int(found[0]) + 1) + self.line[found.end() :]
            yield other
        for at, n in enumerate(self.report):
            other = copy.copy(self)
            other.report = [*self.report[:at], n + 1, *self.report[at + 1 :]]
            yield other
        for name, n in self.fields.items():
            other = copy.copy(self)
            other.fields = {**self.fields, name: n + 1}
            yield other


def record_of(words):
    """A record given by its bytes, or by the name of its call, the id and four numbers."""
    if re.fullmatch("[0-9A-F]{2}", words[0]):
        given = bytes.fromhex("".join(words).rstrip("."))
        return given.ljust(RECORD, b"\0") if words[-1] == ".." else given
    call, thread_or_object, *others = words
    return MARK + bytes([CALLS[call], int(thread_or_object)]) + b"".join(number(int(other, 0)) for other in others)


class Example:
    def __init__(self, name, steps):
        self.name, self.steps = name, steps

    def calls(self):
        return [step for step in self.steps if step.is_call]

    def changed(self):
        """The example with one expectation changed, for each of them, and the step that has it."""
        for at, step in enumerate(self.steps):
            for other in step.changed():
                yield at + 1, Example(self.name, [*self.steps[:at], other, *self.steps[at + 1 :]])


def read():
    """The examples, in the order of the file."""
    examples = []
    for line in FILE.read_text().splitlines():
        if line.startswith(" "):
            examples[-1].steps.append(Step(line))
        elif line and not line.startswith("#"):
            examples.append(Example(line, []))
    return examples


# ---- what a program gives


class Answer:
    """The answer to a case: numbers by name, and the image after the call."""

    def __init__(self, data):
        self.numbers, self.image = dict(zip(TOLD, numbers(data[:ANSWER]))), data[ANSWER:]

    def __eq__(self, other):
        return (self.numbers, self.image) == (other.numbers, other.image)

    def of(self, name):
        """One of the numbers, or what a field of the image holds."""
        return self.numbers[name] if name in self.numbers else value(self.image, name)

    def parts(self):
        return {**self.numbers, **{f"byte {at} of the image": byte for at, byte in enumerate(self.image)}}


class Given:
    """What a program gives for an example: the lines of its records as a file, and the answer to each call, the image after one call being
    that of the next. Where an answer hasn't the length that it must have, it is the last, and what the program says about it is kept."""

    def __init__(self, program, example, replay, answers, image):
        self.program, self.answers, self.failure = program, [], ""
        self.lines = replay(b"".join(step.record for step in example.steps)).decode(errors="replace").splitlines()
        for step in example.calls():
            given = answers(step.case(image))
            if len(given) != ANSWER + len(image):
                self.failure = given[max(0, given.rfind(b"exit status")) :].decode(errors="replace").strip()
                break
            self.answers.append(Answer(given))
            image = self.answers[-1].image

    def changed(self):
        """The same with one byte of the last image changed, for each of them."""
        image = self.answers[-1].image
        for at in range(len(image)):
            other, last = copy.copy(self), copy.copy(self.answers[-1])
            last.image = image[:at] + bytes([image[at] ^ 1]) + image[at + 1 :]
            other.answers = [*self.answers[:-1], last]
            yield other

    def wrong(self, at, step):
        """What of a step isn't as it is expected."""
        line = self.lines[at] if at < len(self.lines) else "nothing"
        if line != step.line:
            yield f"{self.program} writes '{line}', expected is '{step.line}'"
        if step.is_call and at == len(self.answers):
            yield f"{self.program} gives no whole answer: {self.failure}"
        elif step.is_call:
            for name, expected in step.expected().items():
                if self.answers[at].of(name) != expected:
                    yield f"{name} is {self.answers[at].of(name)} by {self.program}, expected is {expected}"


def apart(ours, theirs, at):
    """Where two programs' answers to one call differ, if both have one."""
    if at >= min(len(ours.answers), len(theirs.answers)) or ours.answers[at] == theirs.answers[at]:
        return []
    one, other = ours.answers[at].parts(), theirs.answers[at].parts()
    return [f"{name} is {one[name]} by {ours.program}, {other[name]} by {theirs.program}" for name in one if one[name] != other[name]]


def differences(example, ours, theirs):
    """The first step at which a program's answer isn't the expected one, or the two programs differ, and all that is wrong there."""
    for at, step in enumerate(example.steps):
        found = [*ours.wrong(at, step), *theirs.wrong(at, step), *apart(ours, theirs, at)]
        if found:
            return [f"example '{example.name}', step {at + 1}, {step.text}: {told}" for told in found]
    more = [(given.program, line) for given in (ours, theirs) for line in given.lines[len(example.steps) :]]
    return [f"example '{example.name}', behind its last step: {program} writes '{line}'" for program, line in more]
