#!/usr/bin/env python3
"""Spells the names of this repository's definitions, constructors, fields and lemmas in snake case.

usage: tools/respell.py [--list] [FOLDER]     (FOLDER: the top of a repository; left out, this one)

    decidedContent, chosen-first   ->   decided_content, chosen_first

A name is one of ours if a file of specs/ or of proofs/ has it, and doesn't import it from a library. Names that Rattle makes (a goal,
a step of a function) stand in a function's proof files alone, and stay, as do Rust's, strings, inputs and outputs. A walk by hand
(Proof.antt) is full of them, so it adds none. Types and modules are in camel case already. Where a lemma would have a definition's
name it gets `_lem`.

Our choice `if b then x else y` is `when b then x else y`, since the kit has an `if` of its own: in .antt files, and in edits of them.

Comments and pages: a name in camel case is turned wherever it stands, one with a dash only in a span of code.
--list writes nothing, and prints the names, old and new. A second run writes nothing more.
"""

import os
import re
import sys

# Lemmas that would have the name of a definition of ours, or, `bit-or`, of one of the kit's.
LEMMAS = """
advance-to answers-to begin-plan bit-or called-all client-line clients-in count-in ended-by entry-fits entry-in entry-length entry-slot
events-of examples-hold file-at file-fits file-in file-line file-pages-below files-from format-by format-done free-slots given-to
goes-on header-fits header-in header-mark header-sector-in headers-in held-by-other held-files holder-fits holder-in holds-fit in-hex
is-client is-file lists-of looks-hold map-after map-in mark-fits new-files new-header new-session new-volume no-entry no-file no-header
none-active none-reading not-formatted not-sound open-plan open-read-plan other-bits-refused pages-below pages-differ passed-query
readers-hold record-fits record-full record-in refusals-hold refused-by rewrites-hold run-formatted same-answer session-fits slot-of
slot-or slots-left small-file small-table small-view soundness-holds spares-hold state-in step-by stores-counted stores-in stores-of
table-bytes table-fits table-for table-parts transcript-length tried-from two-pages with-reading without-reader without-reading
write-plan
""".split()

NAME = re.compile(r"(?<![\w'?′-])[^\W\d_][\w'?′-]*")
QUIET = re.compile(r'"(?:[^"\\\n]|\\.)*"|(?<![^\s(){}.;,@"«»])--[^\n]*', re.S)
USE = re.compile(r"(?m)^\s*(?:pub |ghost )*use ([^\s;{]+)(\{[^}]*\})?")
OF_A_FUNCTION = re.compile(r"/proofs/.+/(Answers|Invariants|Proof)\.antt$")
# What a function's proof file declares for itself: a name with a type that is no goal.
OWN = re.compile(r"(?m)^(?:(?:pub|abbrev|unfoldable) )*([\w'-]+)(?: [({].*)? :(?! goal\.)")
CHOICE = re.compile(r"(?<![^\s(])if(?= )")
SPAN = re.compile(r"`[^`\n]*`")


def is_odd(name):
    return name[0].islower() and bool(re.search(r"[\w'?]-\w|[a-z0-9][A-Z]|′", name))


def respelled(name):
    words = re.sub(r"(?<=[a-z0-9])[A-Z]+", lambda m: "_" + m[0], name)
    return words.replace("-", "_").replace("′", "'").lower() + ("_lem" if name in LEMMAS else "")


def files(root, *ends):
    for folder, folders, names in os.walk(root):
        folders[:] = sorted(d for d in folders if d not in ("out", "target", ".git"))
        yield from (os.path.join(folder, n) for n in sorted(names) if n.endswith(ends))


def read(path):
    with open(path, encoding="utf-8", newline="") as f:
        return f.read()


def code_of(path):
    return QUIET.sub(" ", read(path)) if path.endswith(".antt") else re.sub("//.*", "", read(path))


def of_libraries(code, crates):
    """The names that a file's imports bring in from a library."""
    theirs = set()
    for source, items in USE.findall(code):
        steps = source.split(".")
        if steps[0] != "Rattle" or not os.path.isdir(os.path.join(crates, *steps[1:2])):
            theirs.update(NAME.findall(items))
    return theirs


def names_of(root):
    """Our names that are not in snake case, and those that libraries have."""
    crates = os.path.join(root, "crates")
    ours, theirs = set(), set()
    for path in files(crates, ".antt", ".rt"):
        code = code_of(path)
        lent = of_libraries(code, crates)
        theirs |= lent
        if path.endswith(".antt") and not path.endswith("/Proof.antt"):
            found = set(filter(is_odd, NAME.findall(code)))
            ours |= (found & set(OWN.findall(code)) if OF_A_FUNCTION.search(path) else found) - lent
    return {name: respelled(name) for name in ours}, theirs


class Speller:
    def __init__(self, names):
        self.names = names
        # In pages and prose a word with a dash may be English.
        self.plain = {old: new for old, new in names.items() if "-" not in old}

    def turn(self, text, names=None):
        return NAME.sub(lambda m: (names or self.names).get(m[0], m[0]), text)

    def prose(self, text):
        out, at = [], 0
        for m in SPAN.finditer(text):
            out += [self.turn(text[at : m.start()], self.plain), self.turn(m[0])]
            at = m.end()
        return "".join(out) + self.turn(text[at:], self.plain)

    def code(self, line, mark):
        """A line of code that may end in a comment, which begins with the mark; what is quoted stays."""
        quoted = re.split(r'("(?:[^"\\]|\\.)*")', line)
        out = []
        for n, part in enumerate(quoted):
            at = re.search(rf"(?<!\S){mark}", part) if n % 2 == 0 else None
            if at:
                rest = part[at.start() :] + "".join(quoted[n + 1 :])
                return "".join(out) + self.turn(part[: at.start()]) + self.prose(rest)
            out.append(part if n % 2 else self.turn(part))
        return "".join(out)

    def antt(self, line):
        comment = re.search(r"(?<!\S)--", line)
        at = comment.start() if comment else len(line)
        code = CHOICE.sub("when", line[:at].replace("if◌then◌else◌", "when◌then◌else◌"))
        return self.code(code + line[at:], "--")

    def edit(self, line, of_antt):
        if line.startswith("#"):
            return self.prose(line)
        return self.antt(line) if of_antt else self.code(line, "//")

    def edits(self, text):
        """An edit's lines; a line `file:` says of which file the next ones are."""
        out, of_antt = [], False
        for line in text.split("\n"):
            of_antt = line.endswith(".antt") if line.startswith("file:") else of_antt
            out.append(self.edit(line, of_antt))
        return "\n".join(out)

    def page(self, text):
        fenced = re.split(r"(?m)^(```.*\n(?:.*\n)*?```.*)$", text)
        return "".join(self.turn(part) if n % 2 else self.prose(part) for n, part in enumerate(fenced))

    def file(self, path, text):
        if path.endswith((".md", ".edit")):
            return self.page(text) if path.endswith(".md") else self.edits(text)
        line = self.antt if path.endswith(".antt") else lambda line: self.code(line, "//")
        return "\n".join(map(line, text.split("\n")))


# Fields of the volume's WellFormed that are named as definitions: a field is no lemma, and keeps the plain name.
FIELDS = {"record_fits_lem": "record_fits"}


def fields(path, text):
    for lem, plain in FIELDS.items():
        text = re.sub(rf"(?<=\.){lem}(?![\w'-])|(?<![\w'.-]){lem}(?= =)", plain, text)
        if path.endswith("volume/specs/WellFormed.antt"):
            text = re.sub(rf"(?<=  pub ){lem}(?= :)", plain, text)
    return text


def main(args):
    listing = "--list" in args
    args = [a for a in args if a != "--list"]
    root = os.path.abspath(args[0] if args else os.path.join(os.path.dirname(__file__), ".."))
    names, theirs = names_of(root)
    if listing:
        print("\n".join(f"{old}\t{new}" for old, new in sorted(names.items())))
        return
    crates = os.path.join(root, "crates")
    for path in files(root, ".antt", ".rt", ".edit", ".md"):
        if os.path.relpath(path, root) == "docs/PORT.md":
            continue
        lent = of_libraries(code_of(path), crates) if path.endswith((".antt", ".rt")) else theirs
        speller = Speller({old: new for old, new in names.items() if old not in lent})
        old = read(path)
        new = fields(path, speller.file(path, old))
        if new != old:
            with open(path, "w", encoding="utf-8", newline="") as f:
                f.write(new)
            print(os.path.relpath(path, root))


if __name__ == "__main__":
    main(sys.argv[1:])
