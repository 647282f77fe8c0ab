#!/usr/bin/env python3
"""Lays out the sample cards, lists and records.

make.py FOLDER writes FOLDER/NAME.card for each card of cards.txt, FOLDER/NAME.list for each list of lists.txt and FOLDER/NAME.fasta for each
record of records.txt, the texts beside this script that say which there are.

The layout is read off the scope document and requests 1 and 2 once more: nothing of it is shared with the proved code or with second/. No rule
is tested here, so that a card or a list that is to be refused is laid out as it is written.
"""
import pathlib
import re
import sys

BLOCK = 512
INDEX_AT = 508
ENTRIES_IN_A_BLOCK = 63
FORM = 1
KINDS = {"{": 1, "[": 2}
MARKS = {1: ",", 2: "-"}
NO_SECOND_PLACE = 65535
LETTERS = "ACGT"
LETTERS_OF_A_LINE = 60
ENTRY = re.compile(r"([ACGT]+)(?:\{(\d+)(?:,(\d+))?\}|\[(\d+),(\d+)\])")


def number(value, size):
    """The bytes of a number, the lowest first."""
    return value.to_bytes(size, "little")


def block(index, own):
    """A block: its own bytes, zeros, its index, and the two sums over all of these."""
    summed = own.ljust(INDEX_AT, b"\0") + number(index, 2)
    a = b = 0
    for byte in summed:
        a = (a + byte) % 255
        b = (b + a) % 255
    return summed + bytes([a, b])


def value(word):
    """The value of a word, its first letter the most significant."""
    total = 0
    for letter in word:
        total = 4 * total + LETTERS.index(letter)
    return total


def card(kind, l, entries):
    """The bytes of a card whose entries are a word, place one and place two each."""
    head = bytes([FORM, kind, l, 0]) + number(len(entries), 2)
    blocks = [block(0, head)]
    stored = [number(value(word), 4) + number(one, 2) + number(two, 2) for word, one, two in entries]
    for start in range(0, len(stored), ENTRIES_IN_A_BLOCK):
        blocks.append(block(len(blocks), b"".join(stored[start : start + ENTRIES_IN_A_BLOCK])))
    return b"".join(blocks)


def of_table(text):
    """Kind, l and entries of a table: word{place}, word{place,place} or word[first,last] for each entry, all of one kind."""
    entries = []
    for entry in text.split():
        word, one, two, first, last = ENTRY.fullmatch(entry).groups()
        places = (first, last) if one is None else (one, two or NO_SECOND_PLACE)
        entries.append((word, *map(int, places)))
    kinds = set(re.findall(r"[{[]", text))
    lengths = {len(word) for word, _, _ in entries}
    assert len(kinds) == len(lengths) == 1, text
    return KINDS[kinds.pop()], lengths.pop(), entries


def target_of(text):
    """The letters of a target, after `target L BEFORE AFTER`."""
    return "".join(text.split()[4:])


def of_target(text):
    """Kind, l and entries of `target L BEFORE AFTER` and a target's letters: a span card, each word of L letters with its place in the target
    and as many places before and after it, as far as the card has them; listed alphabetically."""
    l, before, after = map(int, text.split()[1:4])
    target = target_of(text)
    m = len(target) - l + 1
    entries = [(target[i : i + l], max(0, i - before), min(m - 1, i + after)) for i in range(m)]
    return KINDS["["], l, sorted(entries)


def listed(kind, entries, first=1, bare=False):
    """The bytes of a probe list: a line for each entry, its places counted from `first`. With `bare` a span one place wide is a number alone."""
    lines = []
    for word, one, two in entries:
        alone = two == NO_SECOND_PLACE if kind == KINDS["{"] else bare and one == two
        places = [one] if alone else [one, two]
        lines.append(word + "\t" + MARKS[kind].join(str(place + first) for place in places) + "\n")
    return "".join(lines).encode()


def record(name, letters):
    """The bytes of a FASTA record."""
    starts = range(0, len(letters), LETTERS_OF_A_LINE)
    return "".join([f">{name}\n", *(letters[start : start + LETTERS_OF_A_LINE] + "\n" for start in starts)]).encode()


def without_notes(text):
    """The text without the lines that say something, which begin with `#`."""
    return "\n".join(line for line in text.splitlines() if not line.startswith("#"))


def texts(text):
    """Each table, as text, by its name, from a text that has `NAME:` on a line before each."""
    parts = re.split(r"^([a-z0-9-]+):$", without_notes(text), flags=re.MULTILINE)
    assert not parts[0].strip(), parts[0]
    return dict(zip(parts[1::2], parts[2::2]))


def tables(text):
    """Kind, l and entries of each card by its name, from a text such as cards.txt."""
    return {
        name: (of_target if table.split()[0] == "target" else of_table)(table)
        for name, table in texts(text).items()
    }


def lists(text, cards):
    """Each list's name and bytes, from a text with a line `NAME: CARD FIRST` for each, and the word `bare` where `listed` is to have it."""
    for line in without_notes(text).split("\n"):
        if line:
            name, card_name, first, *bare = line.replace(":", "", 1).split()
            assert bare in ([], ["bare"]), line
            kind, _, entries = cards[card_name]
            yield name, listed(kind, entries, int(first), bool(bare))


def records(text, cards_text):
    """Each record's name, its card's and its letters, from a text with a line `NAME: CARD LETTERS` for each, or `NAME: CARD target` where they are
    the card's target."""
    for line in without_notes(text).split("\n"):
        if line:
            name, card_name, letters = line.replace(":", "", 1).split()
            yield name, card_name, target_of(texts(cards_text)[card_name]) if letters == "target" else letters


def main():
    if len(sys.argv) != 2:
        sys.exit("usage: make.py FOLDER")
    folder, beside = pathlib.Path(sys.argv[1]), pathlib.Path(__file__).parent
    cards_text = (beside / "cards.txt").read_text()
    cards = tables(cards_text)
    for name, said in cards.items():
        (folder / f"{name}.card").write_bytes(card(*said))
    for name, stored in lists((beside / "lists.txt").read_text(), cards):
        (folder / f"{name}.list").write_bytes(stored)
    for name, _, letters in records((beside / "records.txt").read_text(), cards_text):
        (folder / f"{name}.fasta").write_bytes(record(name, letters))


if __name__ == "__main__":
    main()
