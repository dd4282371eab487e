"""What include/ordizgum.h, docs/IMAGE.md and second/README.md lay down, for the scripts beside this file: numbers by their names, where the
fields of an image stand, and the form of records, cases and answers."""
import collections
import functools
import math
import pathlib
import re

TOP = pathlib.Path(__file__).resolve().parent.parent

# ---- the header

HEADER = (TOP / "include/ordizgum.h").read_text()


def defined(comment):
    """The numbers that a paragraph of the header defines, by name; the paragraph is found by how its comment begins."""
    [paragraph] = [paragraph for paragraph in HEADER.split("\n\n") if re.match(r"/\*[\s*]*" + comment, paragraph)]
    return {name.lower().replace("_", "-"): int(n) for name, n in re.findall(r"#define ORDIZGUM_(\w+) (\d+)", paragraph)}


CALLS = defined("Calls")
ANSWERS = defined("Answers")
REPORT = [name.removeprefix("report-") for name in defined("The places of a report")]
REPORT_LENGTH = defined("How many places a report has")["report-length"]
IMAGE_LENGTH = defined("The one length of an image")["image-length"]

# ---- records of a replay file; cases of images, and their answers

MARK, RECORD = b"\xac\xdc", 20
NUMBER = 4  # bytes
REQUEST = NUMBER * len("call id a b c d".split())
ANSWER = NUMBER * (1 + REPORT_LENGTH)  # soundness and report; behind them comes the image


def number(n):
    return n.to_bytes(NUMBER, "little")


def read_number(data):
    return int.from_bytes(data, "little")


def numbers(data):
    return [read_number(data[at : at + NUMBER]) for at in range(0, len(data), NUMBER)]


def cases_of(data):
    """The image and the request of each case of a file."""
    at = 0
    while at < len(data):
        begin = at + NUMBER
        end = begin + read_number(data[at:begin])
        at = end + REQUEST
        yield data[begin:end], data[end:at]


# ---- the image

# A field of the image, or a part of it: whose it is, its name, where whose it is begins, its offset from there, and its bytes.
Field = collections.namedtuple("Field", "of name begin at size")


def read_page():
    """The rows of the tables in the page's first chapter, which is the image that users have; a row's name ends at its first comma."""
    chapter = (TOP / "docs/IMAGE.md").read_text().split("\n# ")[0]
    for section in chapter.split("\n## ")[1:]:
        heading, rows = section.split("\n", 1)
        of, _, begin = heading.partition(", at ")
        for at, size, name in re.findall(r"(?m)^\| (\d[^|]*) \| (\d+) \| ([^|,]+)", rows):
            yield Field(of, name.strip(), begin or "0", at, int(size))


PAGE = list(read_page())
FIELDS = [field for field in PAGE if field.of != "Parts"]
PARTS = {re.sub(r" 0 to \d+$", "", part.name): part for part in PAGE if part.of == "Parts"}


def pattern(field):
    """What names a field: a letter, there for an id or a place, is a number."""
    name = f"{field.of[0].lower()}{field.of[1:]} {field.name}" if re.search(r" [a-z]$", field.of) else field.name
    return re.sub(r"\b([a-z])\b", r"(?P<\1>\\d+)", name)


def total(offset, letters):
    """An offset as the page has it, such as 486 + 16 p + k."""
    return sum(math.prod(letters[word] if word in letters else int(word) for word in term.split()) for term in offset.split(" + "))


@functools.lru_cache(None)
def place(named):
    """Where a field such as `timer 0 expiry count` or `ready list 4 id at place 1` begins and ends."""
    for field in FIELDS:
        found = re.fullmatch(pattern(field), named)
        if found:
            letters = {letter: int(n) for letter, n in found.groupdict().items()}
            begin = total(field.begin, letters) + total(field.at, letters)
            return begin, begin + field.size
    raise ValueError(f"docs/IMAGE.md has no field '{named}'")


def value(image, named):
    begin, end = place(named)
    return read_number(image[begin:end])


def each(image, part):
    """The bytes of each record, list or number of a part; how many there are its name says."""
    first, size = int(PARTS[part].at), PARTS[part].size
    length = size // (int(re.search(r" 0 to (\d+)$", PARTS[part].name)[1]) + 1)
    return [image[at : at + length] for at in range(first, first + size, length)]


def within(of):
    """Where each field of a record begins and ends in its bytes, in their order."""
    return [(int(field.at), int(field.at) + field.size) for field in FIELDS if field.of == of]
