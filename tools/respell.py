#!/usr/bin/env python3
"""Brings the repository's own definitions and lemmas to the spelling of today's Rattle: words in snake case, types and modules in upper camel case.

usage: python3 tools/respell.py [--names FILE]     at the top of the repository, once, after the kit's port.py

Renames, in specs/, proofs/ and the clauses of src/: every definition, lemma, constructor and field that specs/ or proofs/*.antt declare and whose name has a dash or a
capital behind a small letter; and the modules specs.Contracts, whose name Rattle now keeps for itself. Names of src/ keep their spelling. Stops where two names would fall together.
With --names it also writes the pairs, old and new.
"""
import glob
import os
import re
import sys

WORD = r"\w\-'\u00b7\u25cc"
TOKEN = re.compile(r"[" + WORD + r"]+")
DECLARED = re.compile(r"^ {0,10}(?:(?:pub|abbrev|unfoldable|mutual) )*([" + WORD + r"]+)(?: \{?\(?[^=]*)? :(?: |$)")
FAMILY = re.compile(r"^(?:  )?(?:pub )?(record|data) ([" + WORD + r"]+)")
MEMBER = re.compile(r"^ +(?:pub )?([" + WORD + r" ]+) :(?: |$)")
# Where two names would fall together: the definition keeps the plain one, a lemma gets `_lem`, and a constructor another word. Those that the kit's script had turned already are here too.
CHOSEN = {
    "bit-and": "bit_of_and", "bit-or": "bit_of_or", "bit-xor": "bit_of_xor",
    "after-hear": "after_hear_lem", "after_stop": "after_stop_lem", "begun-as": "begun_as_lem", "byte-by": "byte_by_lem", "fault-of": "fault_of_lem", "fault-on": "fault_on_lem",
    "Fits-not": "fits_not", "is-taken": "is_taken_lem", "laid_in": "laid_in_lem", "mourned-count": "mourned_count_above", "none-line": "none_line_lem", "none_open": "none_open_lem",
    "of-group": "is_of_group", "offer-of": "offer_of_lem", "one_more": "one_more_lem", "place_at": "place_at_lem", "place-from": "place_from_lem", "place-line": "place_line_lem",
    "record-line": "record_line_lem", "roster-count": "roster_count_off", "roster-is": "roster_is_lem", "roster-there": "roster_there_lem", "row-at": "row_at_lem", "rows-of": "rows_of_lem",
    "serials-bytes": "serials_bytes_lem", "shown-at": "shown_at_lem", "shown_of": "shown_of_lem", "shown-open": "shown_open_lem", "unmourned-absent": "list_unmourned_absent",
    "unmourned-count": "count_unmourned", "whole-line": "whole_line_lem", "word-at": "word_at_lem",
    "written_at": "written_at_lem", "answer-of": "answer_of_lem", "duty-met": "duty_met_lem", "off-roster": "off_roster_lem",
}
MODULES = {"calls": "Promises", "executions": "Promises"}


def snake(name):
    """`playedFromNow` and `first-last` as `played_from_now` and `first_last`; a type keeps its capitals."""
    if name[0].isupper() and "-" not in name:
        return name
    parts = re.split(r"-", name)
    out = []
    for p in parts:
        p = re.sub(r"(?<=[a-z0-9])([A-Z])", lambda m: "_" + m.group(1).lower(), p)
        out.append(p if not (p[:1].isupper() and len(parts) > 1) else p[0].lower() + p[1:])
    return "_".join(out)


def sources():
    return sorted(glob.glob("crates/*/specs/*.antt") + glob.glob("crates/*/proofs/*.antt"))


def declared():
    names = set()
    for path in sources():
        inside = False
        for line in open(path, encoding="utf-8"):
            line = line.rstrip("\n")
            if re.match(r"^(--|use |mod |pub mod |infix|ruleset|unfolding)", line):
                continue
            m = FAMILY.match(line)
            if m:
                inside = True
                names.add(m.group(2))
                continue
            if line[:1] not in (" ", ""):
                inside = False
            if inside:
                m = MEMBER.match(line)
                if m:
                    names.update(m.group(1).split())
                continue
            m = DECLARED.match(line)
            if m:
                names.add(m.group(1))
    return names


def borrowed(text):
    """The names that a file brings in from outside the repository: in it they are not its own."""
    own = os.listdir("crates")
    names = set()
    for m in re.finditer(r"^(?:ghost )?use ([^{\n]+)\.\{([^}]*)\}", text, re.M):
        if not (m.group(1).startswith("Rattle.") and m.group(1).split(".")[1] in own):
            names.update(n.strip() for n in m.group(2).split(","))
    return names


def turned(text, names, rust, functions):
    """The text with each name turned. In src/ a name with a dash is one only outside strings, and in a comment only between backquotes."""
    def word(m):
        name = m.group(0)
        if name in CHOSEN and name in names:
            # a step of a function's proof, its module and the function itself bear the plain name
            if (m.string[m.start() - 1:m.start()] == "." and snake(name) in functions) or (rust and "-" not in name):
                return snake(name)
        return names.get(name, name)

    def line_of(line):
        if not rust:
            return TOKEN.sub(word, line)
        out, at = [], 0
        for m in re.finditer(r'b?"(?:\\.|[^"\\])*"|//.*', line):
            out.append(TOKEN.sub(word, line[at:m.start()]))
            piece = m.group(0)
            if piece.startswith("//"):
                piece = re.sub(r"`[^`]*`", lambda q: TOKEN.sub(word, q.group(0)), piece)
            out.append(piece)
            at = m.end()
        out.append(TOKEN.sub(word, line[at:]))
        return "".join(out)

    return "\n".join(line_of(l) for l in text.split("\n"))


def main(argv):
    names = declared()
    pairs = {n: CHOSEN.get(n, snake(n)) for n in names if CHOSEN.get(n, snake(n)) != n}
    into = {}
    for old, new in pairs.items():
        into.setdefault(new, []).append(old)
    functions = {m.group(1) for path in glob.glob("crates/*/src/**/*.rt", recursive=True) for m in re.finditer(r"\bfn (\w+)", open(path, encoding="utf-8").read())}
    kept = {n for n in names if n not in pairs}
    together = {new: olds + ([new] if new in kept else []) for new, olds in into.items() if new != "fits_not" and (len(olds) > 1 or new in kept)}
    if together:
        for new, olds in sorted(together.items()):
            print(f"falls together: {', '.join(olds)} as {new}")
        if "--anyway" not in argv:
            return 1
    for crate, to in MODULES.items():
        at = f"crates/{crate}/specs/Contracts.antt"
        if os.path.exists(at):
            os.rename(at, f"crates/{crate}/specs/{to}.antt")
            lib = f"crates/{crate}/specs/Lib.antt"
            text = open(lib, encoding="utf-8").read()
            open(lib, "w", encoding="utf-8").write(text.replace("pub mod Contracts", f"pub mod {to}").replace("`Contracts`", f"`{to}`"))
    for path in sorted(glob.glob("crates/*/src/**/*.rt", recursive=True) + glob.glob("crates/*/specs/**/*.antt", recursive=True) + glob.glob("crates/*/proofs/**/*.antt", recursive=True)):
        text = open(path, encoding="utf-8").read()
        theirs = borrowed(text)
        new = turned(text, {old: to for old, to in pairs.items() if old not in theirs}, path.endswith(".rt"), functions)
        for crate, to in MODULES.items():
            new = re.sub(rf"Rattle\.{crate}\.specs\.Contracts(?![{WORD}])", f"Rattle.{crate}.specs.{to}", new)
        if new != text:
            open(path, "w", encoding="utf-8").write(new)
    if "--names" in argv:
        with open(argv[argv.index("--names") + 1], "w", encoding="utf-8") as f:
            for old in sorted(pairs):
                f.write(f"{old} {pairs[old]}\n")
    print(f"{len(pairs)} names turned")
    return 0


if __name__ == "__main__":
    raise SystemExit(main(sys.argv[1:]))
