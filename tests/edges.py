#!/usr/bin/env python3
"""Cards at the edges of each rule, with what the programs answer to them.

edges.py FOLDER writes FOLDER/NAME.card for each, and FOLDER/answers.txt, FOLDER/settles.txt and FOLDER/counts.txt in the form of those beside
this script. The answers are stated here, from the scope document and requests 11 and 12; the cards are laid out by samples/make.py.
"""
import pathlib
import sys

sys.dont_write_bytecode = True
sys.path.insert(0, str(pathlib.Path(__file__).parent.parent / "samples"))
from make import block, card, number, of_table

PAIR, SPAN = 1, 2
S1 = card(*of_table("AC[0,2] CA[1,3] AG[0,2] GA[1,3]"))


def head(form=1, kind=SPAN, l=2, spare=0, m=4, rest=b"", index=0):
    """A first block that says this, with sums that hold."""
    return block(index, bytes([form, kind, l, spare]) + number(m, 2) + rest)


def homopolymer(m, l=2, kind=SPAN):
    """A card of m words of l As, each at its own place."""
    return card(kind, l, [("A" * l, i, i if kind == SPAN else 65535) for i in range(m)])


def own_places(m):
    """Entries of m words of A, each at its own place."""
    return [("AA", i, i) for i in range(m)]


def with_entry(place, entry, kind=SPAN):
    """Four entries that hold, with another one in the place of one of them."""
    entries = [("AC", 0, 2), ("CA", 1, 3), ("AG", 0, 2), ("GA", 1, 3)]
    entries[place] = entry
    return card(kind, 2, entries)


def changed(stored, at, to):
    """The card with one byte changed."""
    return stored[:at] + bytes([to]) + stored[at + 1 :]


def raw(word, one, two):
    """An entry by its numbers, as it is stored."""
    return number(word, 4) + number(one, 2) + number(two, 2)


FULL = homopolymer(504)
ENTRIES = S1[512:544]
MANY = 3 << 20

REFUSED = {
    "empty": (b"", 1, 0),
    "one-byte": (b"\1", 1, 0),
    "a-byte-under-a-block": (S1[:511], 1, 0),
    "check-of-head": (changed(S1, 4, 5), 2, 0),
    "check-byte-a": (changed(S1, 510, S1[510] ^ 1), 2, 0),
    "check-byte-255": (b"\xff" * MANY, 2, 0),
    "check-of-entries": (changed(S1, 512, 2), 2, 1),
    "check-of-last-block": (changed(FULL, len(FULL) - 1, FULL[-1] ^ 1), 2, 8),
    "index-of-head": (head(index=1) + S1[512:], 3, 0),
    "index-of-entries": (S1[:512] + block(2, ENTRIES), 3, 1),
    "blocks-exchanged": (FULL[:512] + FULL[1024:1536] + FULL[512:1024] + FULL[1536:], 3, 1),
    "form-0": (bytes(MANY), 4, 0),
    "form-2": (head(form=2) + S1[512:], 4, 0),
    "kind-0": (head(kind=0) + S1[512:], 5, 0),
    "kind-3": (head(kind=3) + S1[512:], 5, 0),
    "l-1": (head(l=1) + S1[512:], 6, 0),
    "l-13": (head(l=13) + S1[512:], 6, 0),
    "m-0": (head(m=0), 7, 0),
    "m-505": (head(m=505) + FULL[512:], 7, 0),
    "spare-byte-3": (head(spare=1) + S1[512:], 8, 0),
    "spare-byte-507": (head(rest=bytes(501) + b"\1") + S1[512:], 8, 0),
    "spare-slot": (S1[:512] + block(1, ENTRIES + raw(0, 0, 1)), 8, 1),
    "spare-byte-504": (S1[:512] + block(1, ENTRIES + bytes(472) + b"\1"), 8, 1),
    "head-alone": (S1[:512], 9, 0),
    "cut-by-a-byte": (S1[:-1], 9, 0),
    "cut-by-a-block": (FULL[:-512], 9, 0),
    "a-byte-after-it": (S1 + b"\0", 9, 0),
    "a-line-after-it": (S1 + b"\n", 9, 0),
    "a-block-after-it": (S1 + bytes(512), 9, 0),
    "two-cards": (S1 + S1, 9, 0),
    "megabytes-after-it": (S1 + bytes(MANY), 9, 0),
    "damage-and-a-byte-after-it": (changed(S1, 512, 2) + b"\0", 9, 0),
    "word-of-16": (S1[:512] + block(1, ENTRIES[:24] + raw(16, 1, 3)), 10, 3),
    "word-and-places": (S1[:512] + block(1, raw(16, 9, 0) + ENTRIES[8:]), 10, 0),
    "place-m": (with_entry(2, ("AG", 0, 4)), 11, 2),
    "span-turned-round": (with_entry(1, ("CA", 3, 1)), 11, 1),
    "span-with-no-second": (with_entry(0, ("AC", 0, 65535)), 11, 0),
    "nine-wide": (card(SPAN, 2, [("AA", 0, 8)] + own_places(9)[1:]), 11, 0),
    "pair-of-one-place-twice": (with_entry(1, ("CA", 1, 1), PAIR), 11, 1),
    "pair-without-a-first": (with_entry(3, ("GA", 65535, 3), PAIR), 11, 3),
    "last-entry-of-a-full-card": (card(SPAN, 2, own_places(503) + [("AA", 503, 504)]), 11, 503),
    "five-wide-and-place-m": (card(SPAN, 2, [("AA", 0, 4)] + own_places(4)[1:] + [("AA", 4, 5)]), 11, 4),
}


def by_fours(kind, m):
    """A card of m words by fours, each four as P1 or S1 has them: a choice for every four."""
    four = [("AC", 0), ("CA", 1), ("AG", 0), ("GA", 1)]
    return card(kind, 2, [(word, 4 * i + at, 4 * i + at + 2) for i in range(m // 4) for word, at in four])


# Span cards at most 4 wide: name, card, both lines of `build` without the placements, and these; `settle` has 0 in their place.
NARROW = {
    "l-12": (homopolymer(3, l=12), "CARD span 12 3", f"sole {'A' * 14}", 3),
    "m-1": (homopolymer(1), "CARD span 2 1", "sole AA", 1),
    "m-63": (homopolymer(63), "CARD span 2 63", f"sole {'A' * 64}", 63),
    "m-64": (homopolymer(64), "CARD span 2 64", f"sole {'A' * 65}", 64),
    "m-504": (FULL, "CARD span 2 504", f"sole {'A' * 505}", 504),
    "m-504-span-choices": (by_fours(SPAN, 504), "CARD span 2 504", f"several {'ACAG' * 126}A", 508),
    "m-504-span-l-12": (homopolymer(504, l=12), "CARD span 12 504", f"sole {'A' * 515}", 504),
    "largest-word": (card(SPAN, 12, [("T" * 12, 0, 0)]), "CARD span 12 1", "sole TTTTTTTTTTTT", 1),
    "four-wide": (card(SPAN, 2, [("AA", 0, 3)] * 4), "CARD span 2 4", "sole AAAAA", 4),
    "seven-over-a-place": (card(SPAN, 2, [("AA", 0, 3)] * 4 + [("AA", 3, 6)] * 3), "CARD span 2 7", "sole AAAAAAAA", 7),
    # At place 6 two are left that end there.
    "eight-over-a-place": (card(SPAN, 2, [("AA", 0, 3)] * 4 + [("AA", 3, 6)] * 4), "CARD span 2 8", "none", 6),
}

# Wider ones: name, card, both lines of `build`, and the first entry over 4 wide.
WIDER = {
    "five-wide": (card(SPAN, 2, [("AA", 0, 4)] * 5), "CARD span 2 5", "sole AAAAAA 5", 0),
    "five-wide-at-the-end": (card(SPAN, 2, own_places(4) + [("AA", 0, 4)]), "CARD span 2 5", "sole AAAAAA 5", 4),
    "eight-wide": (card(SPAN, 2, [("AA", 0, 7)] * 8), "CARD span 2 8", "sole AAAAAAAAA 8", 0),
    "wider-entry-503": (card(SPAN, 2, own_places(503) + [("AA", 499, 503)]), "CARD span 2 504", f"sole {'A' * 505} 504", 503),
    # Eight are over place 3, and there is no build; but the widths are tested first.
    "eight-over-a-place-and-five-wide": (
        card(SPAN, 2, [("AA", 0, 3)] * 4 + [("AA", 3, 6)] * 3 + [("AA", 2, 6)]),
        "CARD span 2 8",
        "none 6",
        7,
    ),
}

# Pair cards: name, card, both lines of `build`, and the line of `count_builds`.
COUNTED = {
    "m-504-choices": (by_fours(PAIR, 504), "CARD pair 2 504", f"several {'ACAG' * 126}A 0", "builds 2^126"),
    "m-504-swaps": (
        card(PAIR, 2, [("AA", 2 * (i // 2), 2 * (i // 2) + 1) for i in range(504)]),
        "CARD pair 2 504",
        f"sole {'A' * 505} 0",
        "builds 2^0",
    ),
    "m-504-pair-l-12": (homopolymer(504, l=12, kind=PAIR), "CARD pair 12 504", f"sole {'A' * 515} 0", "builds 2^0"),
    "pair-crowded": (card(PAIR, 2, [("AA", 0, 1)] * 3), "CARD pair 2 3", "none 0", "builds 0"),
}


def main():
    folder = pathlib.Path(sys.argv[1])
    answers, settles, counts = [], [], []

    def answered(name, stored, answer, settle, count):
        (folder / f"{name}.card").write_bytes(stored)
        answers.append(f"{name}|{answer}\n")
        settles.append(f"{name}|{settle}\n")
        counts.append(f"{name}|{count}\n")

    for name, (stored, rule, place) in REFUSED.items():
        answered(name, stored, *[f"refused {rule} {place}"] * 3)
    for name, (stored, first, second, placements) in NARROW.items():
        answered(name, stored, f"{first}|{second} {placements}", f"{first}|{second} 0", "refused 5 0")
    for name, (stored, first, second, entry) in WIDER.items():
        answered(name, stored, f"{first}|{second}", f"refused 30 {entry}", "refused 5 0")
    for name, (stored, first, second, count) in COUNTED.items():
        answered(name, stored, f"{first}|{second}", "refused 5 0", count)
    (folder / "answers.txt").write_text("".join(answers))
    (folder / "settles.txt").write_text("".join(settles))
    (folder / "counts.txt").write_text("".join(counts))


if __name__ == "__main__":
    main()
