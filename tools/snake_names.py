#!/usr/bin/env python3
"""Spells the repository's own definitions and lemmas as today's Rattle does: words in snake case, types and modules in camel case.

usage: python3 tools/snake_names.py           at the top of the repository, once, after port.py
       python3 tools/snake_names.py --table   prints the names, old and new, and changes nothing

It reads which names crates/*/specs and crates/*/proofs declare, and spells each of them anew wherever it stands: in those folders, in the clauses
and comments of crates/*/src, in must-fail edits, and between backquotes in pages. Functions of src/, strings and the names that Rattle makes keep
their spelling.
"""

import os
import re
import sys

# a name as antt cuts it
NAME = r"[^\W\d][\w'₀-₉-]*"
TOKEN = re.compile(rf"(?<![\w'\-])({NAME})")
DECLARED = re.compile(rf"^( *)(?:(?:abbrev|unfoldable|pattern|pub|opaque) )*({NAME})(?: \{{[^}}]*\}})* :(?: (.*))?$")
TYPE_MADE = re.compile(rf"^ *(?:pub )?(?:record|data) ({NAME})")
ALIAS = re.compile(rf"^use .* as ({NAME})$")
# What would meet another name of the repository in some file, a function into Type, and what they are called.
CHOSEN = {
    "no-build": "no_builds",
    "no-letter": "not_a_letter",
    "on-output": "to_output",
    "on-errors": "to_errors",
    "cardWithin": "CardWithin",
}
# Lemmas that port.py gave the name which their function gets here, by the crates where they stand.
LEMMAS = {
    "held_back": ["base_answers/proofs/Laws"],
    "answer_back": ["build_method/proofs/RightLaws"],
    "written_back": ["card_writer/proofs/Determined"],
    "by_answer": ["program_converting/proofs/FastaLaws"],
    "left_over": ["span_steps/proofs/Candidates"],
    "is_body": ["text_fasta/proofs/AnswerLaws", "text_fasta/proofs/LinedLaws"],
    "is_digit": ["text_probes/proofs/NumberLaws"],
}


def files(top, *endings):
    for folder, dirs, names in os.walk(top):
        dirs[:] = sorted(d for d in dirs if d not in ("out", ".git", "target"))
        for name in sorted(names):
            if name.endswith(endings):
                yield os.path.join(folder, name)


def read(path):
    with open(path, encoding="utf-8") as it:
        return it.read()


def snake(name):
    words = re.sub(r"(?<=[a-z0-9₀-₉])([A-Z])(?=[a-z0-9]|$|[_-])", lambda m: "_" + m[1].lower(), name)
    words = re.sub(r"(?<=[a-z0-9])([A-Z])", lambda m: "_" + m[1].lower(), words)
    return words.replace("-", "_")


def camel(name):
    head, *rest = re.split(r"[-_]", name)
    return head + "".join(word[:1].upper() + word[1:] for word in rest)


def is_function_folder(path):
    parts = path.split(os.sep)
    return parts[2] == "proofs" and len(parts) > 4


def renamed():
    """The names that change, each with its new spelling, and the fields among them."""
    names, fields, declared = {}, set(), set()
    for path in files("crates", ".antt"):
        in_function = is_function_folder(path)
        for line in read(path).splitlines():
            made = TYPE_MADE.match(line)
            if made:
                name = made[1]
                if camel(name) != name:
                    names[name] = camel(name)
                continue
            found = DECLARED.match(line)
            if not found or line.lstrip().startswith("--"):
                continue
            name = found[2]
            declared.add(name)
            if in_function and not found[0].lstrip().startswith("pub") and "-" in name and not re.search("[A-Z]", name):
                continue
            if name[:1].isupper():
                new = camel(name) if "-" in name else name
            else:
                new = snake(name)
            if found[1]:
                fields.add(name)
            if new != name:
                names[name] = CHOSEN.get(name, new)
    # a lemma that would have its function's name
    taken = {snake(name) for name in declared if "-" not in name}
    for name in names:
        if "-" in name and name not in CHOSEN and names[name] in taken:
            names[name] += "_lem"
    return names, fields, declared


# The names that Rattle makes of a function stand in its own modules, and the strings keep their letters.
STRING = re.compile(r'"(?:[^"\\\n]|\\.)*"')


class Speller:
    def __init__(self, names, fields, spelled):
        self.names, self.fields, self.spelled = names, fields, spelled
        self.library = set()

    def word(self, line, found):
        name, at = found[1], found.start()
        if name in self.library:
            return name
        new = self.names.get(name)
        if new is None and snake(name) in self.spelled:
            return snake(name)
        if new is None or (at and line[at - 1] == "." and name not in self.fields and not re.search("[a-z][A-Z]", name)):
            return name
        return new

    def code(self, line):
        kept = [it.span() for it in STRING.finditer(line)]
        inside = lambda at: any(a <= at < b for a, b in kept)
        return TOKEN.sub(lambda it: it[1] if inside(it.start()) else self.word(line, it), line)

    def said(self, line):
        """A comment or a page: what stands between backquotes, and words in camel case."""
        line = re.sub(r"`[^`\n]+`", lambda it: self.code(it[0]), line)
        return TOKEN.sub(lambda it: self.word(line, it) if re.search("[a-z][A-Z]", it[1]) else it[1], line)

    def antt(self, text):
        self.library = library_names(text)
        lines = []
        for line in text.split("\n"):
            at = line.find("--")
            while at > 0 and not line[at - 1].isspace():
                at = line.find("--", at + 2)
            lines.append(self.code(line) if at < 0 else self.code(line[:at]) + self.said(line[at:]))
        return "\n".join(lines)

    def rust(self, text):
        self.library = library_names(text)
        out, rest = [], text
        for line in text.split("\n"):
            at = line.find("//")
            out.append(line if at < 0 else line[:at] + self.said(line[at:]))
        text = "\n".join(out)
        return self.clauses(re.sub(r"(?m)^ *(?:pub )?ghost use [^;]*;", lambda it: self.code(it[0]), text))

    def clauses(self, text):
        out, at = [], 0
        for it in re.finditer(r"(?m)^( *)(?:requires|ensures|ghost (?!use)\w+:?)\*?[\w ]*:? *\{", text):
            if it.start() < at:
                continue
            depth, end = 1, it.end()
            while depth:
                depth += {"{": 1, "}": -1}.get(text[end], 0)
                end += 1
            out += [text[at : it.end()], self.code(text[it.end() : end])]
            at = end
        return "".join(out) + text[at:]


def library_names(text):
    """What a file imports from the libraries, whose names stay."""
    found = re.findall(r"(?m)^ *(?:ghost )?use ([\w.']+)\.\{([^}]*)\}", text)
    ours = {name for name in os.listdir("crates")}
    foreign = [names for module, names in found if not (module.startswith("Rattle.") and module.split(".")[1] in ours)]
    return {re.split(r" as ", it.strip())[-1] for names in foreign for it in names.split(",")}


def aliases(text):
    """A module that a function's file names for itself, in snake case too."""
    names = {it[1] for it in map(ALIAS.match, text.split("\n")) if it and snake(it[1]) != it[1] and not it[1][:1].isupper()}
    taken = set(re.findall(rf"(?<![\w'.-]){NAME}", text))
    for name in sorted(names, key=len, reverse=True):
        new = snake(name)
        if new in taken:
            new += "_fn"
        text = re.sub(rf"(?<![\w'.-]){re.escape(name)}(?![\w'-])", new, text)
    return text


def clashes(path, before, names):
    seen = {}
    words = set(re.findall(NAME, before))
    for old in words:
        if old in names:
            seen.setdefault(names[old], set()).add(old)
    return [(path, new, sorted(olds | ({new} if new in words else set()))) for new, olds in seen.items() if len(olds) > 1 or new in words]


def main(argv):
    names, fields, declared = renamed()
    if argv == ["--table"]:
        for old in sorted(names):
            print(old, names[old], sep="\t")
        return 0
    speller, met = Speller(names, fields, set()), []
    for path in files("crates", ".antt", ".rt", ".edit"):
        before = read(path)
        for name, places in LEMMAS.items():
            if any(path == f"crates/{place}.antt" for place in places):
                before = re.sub(rf"(?<![\w'.-]){name}(?![\w'-])", name + "_lem", before)
        after = speller.antt(before) if path.endswith(".antt") else speller.rust(before) if path.endswith(".rt") else speller.code(before)
        if path.endswith(".antt"):
            after = aliases(after)
            if not is_function_folder(path):
                met += clashes(path, before, names)
        if path.endswith(".rt"):
            met += clashes(path, before, names)
        if after != read(path) and argv != ["--clashes"]:
            with open(path, "w", encoding="utf-8") as it:
                it.write(after)
    # the pages still have the names that port.py respelled
    speller = Speller(names, fields, declared)
    for path in [*files("docs", ".md"), "README.md"]:
        if path.startswith("docs/landings") or path == "docs/PORT.md":
            continue
        before = read(path)
        after = speller.said(before)
        if after != before and argv != ["--clashes"]:
            with open(path, "w", encoding="utf-8") as it:
                it.write(after)
    for path, new, olds in met:
        print(f"look: {path}: {new}: {', '.join(olds)}")
    return 0


if __name__ == "__main__":
    raise SystemExit(main(sys.argv[1:]))
