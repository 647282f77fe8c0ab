#!/usr/bin/env python3
"""What `list2card` and `card2list` are given, and what they write for it.

lists.py FOLDER writes FOLDER/PROGRAM/NAME.in for each sample and for cards and lists at the edges of each rule, and beside it NAME.out and
NAME.err, all that PROGRAM writes on standard output and on standard error. Of lists it is stated in imports.txt and here, from request 2; of
cards the refusals are those of answers.txt and edges.py, and the list is laid out by samples/make.py.
"""
import pathlib
import sys

sys.dont_write_bytecode = True
TESTS = pathlib.Path(__file__).parent
SAMPLES = TESTS.parent / "samples"
sys.path.insert(0, str(SAMPLES))
import edges
from make import LETTERS, card, listed, of_table, tables, without_notes

MOST = 1 << 20
A12, A13 = b"A" * 12, b"A" * 13


def own_places(m, word=b"AA", mark=b""):
    """A list of m lines, each with its own place."""
    return b"".join(b"%s\t%d%s\n" % (word, i, mark and b"%s%d" % (mark, i)) for i in range(1, m + 1))


# As many bytes as `list2card` takes, in sound lines of two letters: all but the last line have five bytes.
LINES = (MOST - 6) // 5
FULL = b"AC\t1\n" * LINES + b"AC\t10\n"

REFUSED = {
    # The text of a line.
    "nothing": (b"", 23, 1),
    "a-newline": (b"\n", 23, 1),
    "no-newline": (b"AC\t1", 23, 1),
    "no-newline-at-the-end": (b"AC\t1\nCA\t2", 23, 2),
    "empty-line-first": (b"\nAC\t1\n", 23, 1),
    "empty-line-last": (b"AC\t1\n\n", 23, 2),
    "carriage-return": (b"AC\t1\r\nCA\t2\r\n", 23, 1),
    "carriage-return-in-the-last-line": (b"AC\t1\nCA\t2\r\n", 23, 2),
    "carriage-returns-alone": (b"AC\t1\rCA\t2\r", 23, 1),
    "byte-order-mark": (b"\xef\xbb\xbfAC\t1\n", 23, 1),
    "two-bytes-a-character": ("AC\t1\n".encode("utf-16"), 23, 1),
    "zero-byte-after-it": (b"AC\t1\n\0", 23, 2),
    "a-card": (edges.S1, 23, 1),
    "empty-word": (b"\t1\n", 23, 1),
    "small-letter": (b"AC\t1\nCa\t2\n", 23, 2),
    "another-letter": (b"AN\t1\n", 23, 1),
    "uracil": (b"AU\t1\n", 23, 1),
    "space-before-the-word": (b" AC\t1\n", 23, 1),
    "space-for-tab": (b"AC 1\n", 23, 1),
    "space-before-tab": (b"AC \t1\n", 23, 1),
    "space-before-the-number": (b"AC\t 1\n", 23, 1),
    "space-at-the-end": (b"AC\t1 \n", 23, 1),
    "space-after-the-comma": (b"AC\t1, 2\n", 23, 1),
    "no-tab": (b"AC\n", 23, 1),
    "no-number": (b"AC\t\n", 23, 1),
    "two-tabs": (b"AC\t\t1\n", 23, 1),
    "tab-at-the-end": (b"AC\t1\t\n", 23, 1),
    "third-column": (b"AC\t1\t2\n", 23, 1),
    "no-number-after-the-comma": (b"AC\t1,\n", 23, 1),
    "no-number-before-the-comma": (b"AC\t,1\n", 23, 1),
    "comma-alone": (b"AC\t,\n", 23, 1),
    "no-number-after-the-hyphen": (b"AC\t1-\n", 23, 1),
    "minus": (b"AC\t-1\n", 23, 1),
    "plus": (b"AC\t+1\n", 23, 1),
    "two-commas": (b"AC\t1,,2\n", 23, 1),
    "three-places": (b"AC\t1,2,3\n", 23, 1),
    "two-hyphens": (b"AC\t1-2-3\n", 23, 1),
    "comma-and-hyphen": (b"AC\t1,2-3\n", 23, 1),
    "hyphen-and-comma": (b"AC\t1-2,3\n", 23, 1),
    "dots": (b"AC\t1..2\n", 23, 1),
    "hexadecimal": (b"AC\t0x1\n", 23, 1),
    "fraction": (b"AC\t1.0\n", 23, 1),
    "leading-zero": (b"AC\t01\n", 23, 1),
    "leading-zero-after-the-mark": (b"AC\t1,02\n", 23, 1),
    "two-zeros": (b"AC\t00\n", 23, 1),
    "65536": (b"AC\t65536\n", 23, 1),
    "65536-after-the-comma": (b"AC\t1,65536\n", 23, 1),
    "65537-after-the-hyphen": (b"AC\t1-65537\n", 23, 1),
    "two-to-the-32": (b"AC\t4294967297\n", 23, 1),
    "two-to-the-64": (b"AC\t18446744073709551617\n", 23, 1),
    "long-number": (b"AC\t" + b"1" * 100000 + b"\n", 23, 1),
    "number-of-zeros": (b"AC\t" + b"0" * 100000 + b"1\n", 23, 1),
    "fault-after-504-lines": (own_places(600) + b"AA\n", 23, 601),
    # Marks.
    "hyphen-after-comma": (b"AC\t1,2\nCA\t1-2\n", 24, 2),
    "comma-after-hyphen": (b"AC\t1-2\nCA\t1,2\n", 24, 2),
    "hyphen-after-comma-and-bare": (b"AC\t1,3\nCA\t2\nAG\t1-2\n", 24, 3),
    "comma-after-bare-and-hyphen": (b"AC\t1\nCA\t1-2\nAG\t3\nGA\t1,2\n", 24, 4),
    "marks-by-turns": (b"AC\t1,3\nCA\t1-2\nAG\t1,2\n", 24, 2),
    # Letters of the words.
    "longer-word": (b"AC\t1\nACA\t2\n", 25, 2),
    "shorter-word": (b"ACA\t1\nCA\t2\n", 25, 2),
    "word-of-one-letter": (b"AC\t1\nA\t2\n", 25, 2),
    "late-longer-word": (own_places(504) + b"AAA\t1\n", 25, 505),
    # Place 0.
    "zero": (b"AC\t0\n", 26, 1),
    "zero-before-the-comma": (b"AC\t0,1\n", 26, 1),
    "zero-after-the-comma": (b"AC\t1,0\n", 26, 1),
    "zero-before-the-hyphen": (b"AC\t0-1\n", 26, 1),
    "zero-after-the-hyphen": (b"AC\t1-0\n", 26, 1),
    "zero-twice": (b"AC\t0-0\n", 26, 1),
    "zero-later": (b"AC\t1\nCA\t2\nAG\t0\n", 26, 3),
    # Lowest line first, and in that order within a line.
    "zero-then-text": (b"AC\t0\nCA\n", 26, 1),
    "zero-then-no-newline": (b"AC\t0\nCA\t2", 26, 1),
    "uneven-then-mixed": (b"AC\t1,2\nACA\t3\nAG\t1-2\n", 25, 2),
    "zero-then-uneven": (b"AC\t1\nCA\t0\nACA\t3\n", 26, 2),
    "text-and-zero": (b"AC\t0,01\n", 23, 1),
    "text-and-uneven": (b"AC\t1\nACA\t2 \n", 23, 2),
    "text-and-mixed": (b"AC\t1,2\nCA\t1-\n", 23, 2),
    "no-newline-and-mixed-uneven-zero": (b"AC\t1,2\nACA\t0-1", 23, 2),
    "mixed-and-uneven": (b"AC\t1,2\nACA\t1-2\n", 24, 2),
    "mixed-and-zero": (b"AC\t1,2\nCA\t0-1\n", 24, 2),
    "mixed-uneven-and-zero": (b"AC\t1-2\nACA\t0,1\n", 24, 2),
    "uneven-and-zero": (b"AC\t1\nACA\t0\n", 25, 2),
    # The text rules before the card's.
    "zero-and-one-letter": (b"A\t0\n", 26, 1),
    "zero-after-a-place-beyond": (b"AC\t9\nCA\t0\n", 26, 2),
    "text-after-thirteen-letters": (A13 + b"\t1\n" + A13 + b"\t2 \n", 23, 2),
    # The card's rules, with the card's places.
    "one-letter": (b"A\t1\n", 6, 0),
    "thirteen-letters": (A13 + b"\t1\n", 6, 0),
    "very-long-word": (b"T" * 1000000 + b"\t1\n", 6, 0),
    "505-lines": (own_places(505), 7, 0),
    "505-lines-of-spans": (own_places(505, mark=b"-"), 7, 0),
    "505-lines-of-one-letter": (own_places(505, b"A"), 6, 0),
    "505-lines-with-a-place-beyond": (b"AA\t65535\n" + own_places(505), 7, 0),
    "place-m-and-one": (b"AC\t1\nCA\t3\n", 11, 1),
    "place-beyond-first": (b"AC\t2\n", 11, 0),
    "second-place-beyond": (b"AC\t1,2\nCA\t2,3\n", 11, 1),
    "span-beyond": (b"AC\t1-1\nCA\t2-3\n", 11, 1),
    "65535": (b"AC\t65535\n", 11, 0),
    "65535-after-the-comma": (b"AC\t1,65535\nCA\t2\n", 11, 0),
    "65535-after-the-hyphen": (b"AC\t1-65535\n", 11, 0),
    "places-turned-round": (b"AC\t1,2\nCA\t2,1\n", 11, 1),
    "one-place-twice": (b"AC\t1\nCA\t2,2\n", 11, 1),
    "span-turned-round": (b"AC\t2-1\nCA\t1-2\n", 11, 0),
    "nine-wide": (b"AA\t1-9\n" + own_places(9)[5:], 11, 0),
    "last-of-504-lines": (own_places(503) + b"AA\t505\n", 11, 503),
    # As much as is read.
    "as-much-as-is-read": (FULL, 7, 0),
    "as-much-as-is-read-without-a-newline": (FULL[:-1] + b"1", 23, LINES + 1),
    "as-much-as-is-read-in-one-word": (b"A" * (MOST - 3) + b"\t1\n", 6, 0),
}

CARDS = {
    "one-line": (b"AC\t1\n", "AC{0}"),
    "no-mark": (b"AC\t2\nCA\t1\n", "AC{1} CA{0}"),
    "bare-on-a-pair-list": (b"AC\t1,2\nCA\t2\n", "AC{0,1} CA{1}"),
    "bare-before-the-comma": (b"AC\t1\nCA\t1,2\n", "AC{0} CA{0,1}"),
    "bare-on-a-span-list": (b"AC\t1-2\nCA\t2\n", "AC[0,1] CA[1,1]"),
    "bare-before-the-hyphen": (b"AC\t1\nCA\t1-2\n", "AC[0,0] CA[0,1]"),
    "one-wide": (b"AC\t1-1\n", "AC[0,0]"),
    "equal-words": (b"AA\t1,2\nAA\t1,2\n", "AA{0,1} AA{0,1}"),
    "twelve-letters": (b"ACGTACGTTGCA\t1\n", "ACGTACGTTGCA{0}"),
    "largest-word": (b"T" * 12 + b"\t1-1\n", "TTTTTTTTTTTT[0,0]"),
    "eight-wide": (b"AA\t1-8\n" * 8, "AA[0,7] " * 8),
    "63-lines": (own_places(63), " ".join(f"AA{{{i}}}" for i in range(63))),
    "64-lines": (own_places(64), " ".join(f"AA{{{i}}}" for i in range(64))),
    "504-lines": (own_places(504), " ".join(f"AA{{{i}}}" for i in range(504))),
    "504-lines-of-spans": (own_places(504, A12, b"-"), " ".join(f"{'A' * 12}[{i},{i}]" for i in range(504))),
}

# Whatever it begins with.
TOO_LONG = {
    "a-byte-more": FULL + b"A",
    "a-line-more": FULL + b"AC\t1\n",
    "a-byte-more-after-a-fault": b"\n" + FULL,
    "a-byte-more-after-a-good-list": b"AC\t1\n" + bytes(MOST - 4),
    "megabytes": bytes(3 * MOST),
}

# What a card's list is.
EXPORTED = {
    "pair-one-place": ("AC{0}", b"AC\t1\n"),
    "pair-two-places": ("AC{0,1} CA{0}", b"AC\t1,2\nCA\t1\n"),
    "span-one-wide": ("AC[0,0]", b"AC\t1-1\n"),
    "span-eight-wide": ("AA[0,7] " * 8, b"AA\t1-8\n" * 8),
    "tenth-place": ("AA[8,9] " * 10, b"AA\t9-10\n" * 10),
    "letters": ("ACGTACGTTGCA{0}", b"ACGTACGTTGCA\t1\n"),
    "longest": (f"{'T' * 12}{{502,503}} " * 504, (b"T" * 12 + b"\t503,504\n") * 504),
}


def entries_of(stored):
    """Kind and entries of a card that is sound."""
    kind, l, m = stored[1], stored[2], int.from_bytes(stored[4:6], "little")
    entries = []
    for e in range(m):
        at = 512 * (1 + e // 63) + 8 * (e % 63)
        word, one, two = (int.from_bytes(stored[at + a : at + b], "little") for a, b in ((0, 4), (4, 6), (6, 8)))
        entries.append(("".join(LETTERS[word >> 2 * i & 3] for i in reversed(range(l))), one, two))
    return kind, entries


def by_name(path):
    """The fields after the name on each line of a text such as answers.txt, by the name."""
    return dict(line.split("|", 1) for line in without_notes(path.read_text()).split("\n") if line)


def main():
    folder = pathlib.Path(sys.argv[1])
    for program in ("list2card", "card2list"):
        (folder / program).mkdir()

    def case(program, name, given, out, err=""):
        for end, stored in ((".in", given), (".out", out), (".err", err.encode() + b"\n" if err else b"")):
            (folder / program / (name + end)).write_bytes(stored)

    imports = by_name(TESTS / "imports.txt")
    assert {path.stem for path in SAMPLES.glob("*.list")} == set(imports)
    for name, answer in imports.items():
        is_card = answer.endswith(".card")
        out, err = ((SAMPLES / answer).read_bytes(), "") if is_card else (b"", answer)
        case("list2card", f"sample-{name}", (SAMPLES / f"{name}.list").read_bytes(), out, err)
    for name, (given, rule, place) in REFUSED.items():
        case("list2card", name, given, b"", f"refused {rule} {place}")
    for name, (given, table) in CARDS.items():
        case("list2card", name, given, card(*of_table(table)))
    for name, given in TOO_LONG.items():
        case("list2card", name, given, b"", f"list2card: more than {MOST} bytes")

    cards, answers = tables((SAMPLES / "cards.txt").read_text()), by_name(TESTS / "answers.txt")
    for name, (kind, _, entries) in cards.items():
        refused = answers[name] if answers[name].startswith("refused") else ""
        case("card2list", f"sample-{name}", (SAMPLES / f"{name}.card").read_bytes(), b"" if refused else listed(kind, entries), refused)
    for name, (table, out) in EXPORTED.items():
        case("card2list", name, card(*of_table(table)), out)
    for name, (stored, rule, place) in edges.REFUSED.items():
        case("card2list", f"edge-{name}", stored, b"", f"refused {rule} {place}")
    for name, (stored, *_) in (edges.NARROW | edges.WIDER | edges.COUNTED).items():
        case("card2list", f"edge-{name}", stored, listed(*entries_of(stored)))


if __name__ == "__main__":
    main()
