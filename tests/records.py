#!/usr/bin/env python3
"""What `card2fasta` is given, and what it writes for it.

records.py EDGES FOLDER writes FOLDER/card2fasta/NAME.in for each sample card, for each card of EDGES, where edges.py has laid them out, and for
cards whose builds fill a line or nearly do; beside it NAME.args, the arguments, a zero byte after each, and NAME.out and NAME.err, all that the
program writes on standard output and on standard error. Which cards have one build, with its letters, is stated in answers.txt and edges.py; which
names are refused is stated here, from request 1; records are laid out by samples/make.py.
"""
import pathlib
import sys

sys.dont_write_bytecode = True
TESTS = pathlib.Path(__file__).parent
SAMPLES = TESTS.parent / "samples"
sys.path.insert(0, str(SAMPLES))
from lists import by_name
from make import KINDS, card, record, records

PRINTABLE = bytes(range(0x21, 0x7F))
FORTY = b"0123456789012345678901234567890123456789"

NAMES = {
    "one-character": b"n",
    "forty": FORTY,
    "printable-1": PRINTABLE[:40],
    "printable-2": PRINTABLE[40:80],
    "printable-3": PRINTABLE[80:],
    "mark": b">",
    "hyphen": b"-",
    "two-hyphens": b"--",
    "like-an-option": b"--help",
    "redirection": b"<n>",
}

# Arguments that are no name: each is refused with 20 at 0.
NO_NAME = {
    "empty": [b""],
    "space": [b" "],
    "space-inside": [b"run 7"],
    "space-first": [b" run"],
    "space-last": [b"run "],
    "tab": [b"run\t7"],
    "newline": [b"run\n"],
    "newline-inside": [b"run\nACGT"],
    "carriage-return": [b"run\r"],
    "control": [b"run\x1f"],
    "delete": [b"run\x7f"],
    "byte-80": [b"run\x80"],
    "byte-ff": [b"\xff"],
    "not-ascii": ["tél".encode()],
    "forty-one": [FORTY + b"0"],
    "forty-and-a-space": [FORTY + b" "],
    "forty-two": [FORTY + b"01"],
    "4096-bytes": [b"n" * 4096],
    "5000-bytes": [b"n" * 5000],
    "100000-bytes": [b"n" * 100000],
}

# Cards that have no record, whatever the name is.
NO_RECORD = ["p1", "p4", "s3", "stopped-early", "counted-from-1"]

# Letters of builds that leave the first or the second line one short, fill it, and begin another.
LENGTHS = [2, 59, 60, 61, 119, 120, 121, 179, 180, 181, 480, 481]


def written(name, answer):
    """What is written on both streams with a name, where `build` answers this."""
    verdict, *fields = answer.split()
    return (record(name, fields[0]), "") if verdict == "sole" else (b"", answer)


def of_letters(letters):
    """A card that these letters fit, and no others: each word of two letters at its own place."""
    return card(KINDS["["], 2, [(letters[i : i + 2], i, i) for i in range(len(letters) - 1)])


def main():
    edges, folder = pathlib.Path(sys.argv[1]), pathlib.Path(sys.argv[2]) / "card2fasta"
    folder.mkdir()

    def case(name, given, words, out, err=""):
        args = b"".join(word + b"\0" for word in words)
        for end, stored in ((".in", given), (".args", args), (".out", out), (".err", err.encode() + b"\n" if err else b"")):
            (folder / (name + end)).write_bytes(stored)

    for kind, cards, answers in ("sample", SAMPLES, TESTS / "answers.txt"), ("edge", edges, edges / "answers.txt"):
        for name, answer in by_name(answers).items():
            case(f"{kind}-{name}", (cards / f"{name}.card").read_bytes(), [b"run-7"], *written("run-7", answer.split("|")[-1]))

    texts = [(SAMPLES / f"{name}.txt").read_text() for name in ("records", "cards")]
    for name, card_name, _ in records(*texts):
        case(f"record-{name}", (SAMPLES / f"{card_name}.card").read_bytes(), [name.encode()], (SAMPLES / f"{name}.fasta").read_bytes())
    for n in LENGTHS:
        letters = ("GATTACCAGT" * n)[:n]
        case(f"letters-{n}", of_letters(letters), [b"run-7"], record("run-7", letters))

    gattaca, answers = (SAMPLES / "counted-from-0.card").read_bytes(), by_name(TESTS / "answers.txt")
    for name, given in NAMES.items():
        case(f"name-{name}", gattaca, [given], record(given.decode(), "GATTACA"))
    for name, words in NO_NAME.items():
        case(f"no-name-{name}", gattaca, words, b"", "refused 20 0")
    # The card comes first.
    for name in NO_RECORD:
        case(f"no-name-and-{name}", (SAMPLES / f"{name}.card").read_bytes(), [b"run 7"], b"", answers[name].split("|")[-1])


if __name__ == "__main__":
    main()
