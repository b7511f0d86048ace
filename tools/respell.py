#!/usr/bin/env python3
"""Brings the repository's own definitions and lemmas to today's spelling: words in snake case, types and modules in camel case. Run once, right after the kit's port.py.

usage: tools/respell.py [--check]          at the top of the repository

What turns: each name that a file of specs/ or proofs/ declares, gives by `as` or binds, where it has a capital behind a small letter (`payloadMissing`, now `payload_missing`) or a dash between
two words (`well-formed`, now `well_formed`). In a lemma's name a dash stays where it joins two functions' names, as in `length-drop`. Functions of src/ and exported names have neither, and keep theirs.
It goes by whole words: in .antt files, in .rt files outside strings and in must-fail edits; of a comment it turns code spans and words in camel case. A name that would meet another one is
spelled as MEETS has it. A second run changes nothing. With --check it only lists what would turn."""

import collections
import os
import re
import sys

TOKEN = re.compile(r"[^\s(){}\[\].,;:@\"«»|λ`/\\]+")
CAMEL = re.compile(r"[a-z][A-Za-z0-9_'-]*[A-Z]")
DECLARED = re.compile(
    r"(?m)^ *((?:(?:pub|abbrev|unfoldable|data|record|ruleset)\s+)*)([^\s(){}.;,@\"«»]+)(?: [\{(][^{}\n]*[\})])* :(?= |$)"
)
ALIAS = re.compile(r"\bas ([^\s(){}.;,@\"«»]+)")
IMPORT = re.compile(r"(?m)^ *(?:ghost |pub )*use ([^\s;{]+)(\{[^}]*\})?(?: as \S+)?")

# The kit's words that lemmas of this repository begin or end with.
STD = set(
    "length take drop get_or set sets paste map append replicate reverse sum min max cond not div mod mul add sub suc zero nil cons".split()
)

# A name that would be read as another one, with what it is spelled as: an argument, a field or a definition has the plain spelling already.
MEETS = {
    "all-holdable": "all_holdable_lem",
    "bytes-of": "bytes_of_lem",
    "flat-acceptance": "flat_acceptance_lem",
    "flat-acks": "flat_acks_lem",
    "flat-acks-reception": "flat_acks_reception_lem",
    "flat-consumption": "flat_consumption_lem",
    "flat-creation": "flat_creation_lem",
    "flat-dropping": "flat_dropping_lem",
    "flat-reception": "flat_reception_lem",
    "flat-sending": "flat_sending_lem",
    "front-held": "front_held_row",
    "givenBack": "record_given_back",
    "header-alone": "header_alone_row",
    "insert-range": "insert_run",
    "numbered-on": "numbered_on_lem",
    "reads-pieces": "reads_in_pieces",
    "restAt": "rest_from",
    "round-the-end": "round_the_end_row",
    "second-slot-first": "second_slot_first_row",
    "stateFin": "fin_of_state",
    "two-packets": "two_packets_row",
    "type-number": "type_of-type_number",
    "well-formed": "well_formed_lem",
}


def files():
    for folder, dirs, names in os.walk("crates"):
        dirs[:] = sorted(d for d in dirs if d != "out")
        for name in sorted(names):
            if name.endswith((".antt", ".rt", ".edit")):
                yield os.path.join(folder, name)


def read(path):
    with open(path, encoding="utf-8") as f:
        return f.read()


def camel_to_snake(word):
    return re.sub(r"(?<=[a-z0-9])[A-Z]", lambda m: "_" + m[0].lower(), word)


def is_words_with_dash(name):
    return re.fullmatch(r"[A-Za-z0-9_'₀-₉]+(?:-[A-Za-z0-9_'₀-₉]+)+", name) is not None


def spelled(name, functions):
    if name in MEETS:
        return MEETS[name]
    parts = name.split("-") if is_words_with_dash(name) else [name]
    parts = [camel_to_snake(p) if p[:1].islower() else p for p in parts]
    parts = ["get_or" if p == "get_d" else p for p in parts]
    new = parts[0]
    for left, right in zip(parts, parts[1:]):
        joins = left in functions and right in functions and len(parts) == 2
        new += ("-" if joins else "_") + (right if joins or right[:1].islower() else right[:1].lower() + right[1:])
    return new


def survey(texts):
    """The names that the files declare, with the definitions among them, and the names that come from the kit."""
    declared, definitions, members, kits = set(), set(), set(), collections.defaultdict(set)
    for path, text in texts.items():
        if path.endswith(".rt"):
            declared |= {m[1] for use in re.findall(r"ghost use [^;]*;", text) for m in ALIAS.finditer(use)}
        if not path.endswith(".antt"):
            continue
        for m in IMPORT.finditer(text):
            ours = m[1].startswith("Rattle.") and os.path.isdir(os.path.join("crates", m[1].split(".")[1]))
            if not ours and m[2]:
                kits[path] |= {w.split(" as ")[0].strip() for w in m[2][1:-1].split(",")}
        bare = re.sub(r"--[^\n]*", "", text)
        if path.endswith("/Proof.antt"):
            declared |= {m[2] for m in DECLARED.finditer(bare) if m[2].endswith("-spec")}
            continue
        for m in DECLARED.finditer(bare):
            declared.add(m[2])
            if "/specs/" in path:
                members.add(m[2])
            if "/specs/" in path and ("abbrev" in m[1] or "unfoldable" in m[1]):
                definitions.add(m[2])
        declared |= {m[1] for m in ALIAS.finditer(bare)}
        declared |= {w for w in TOKEN.findall(bare) if CAMEL.fullmatch(w + "A") and CAMEL.match(w) and not re.search("_[A-Z]", w) and "-" not in w}
    return declared, definitions, members, kits


def table(texts):
    declared, definitions, members, kits = survey(texts)
    functions = STD | {spelled(d, set()) for d in definitions}
    rows = {}
    for name in declared:
        if re.match(r"[a-z]", name) and CAMEL.match(name) or is_words_with_dash(name):
            new = spelled(name, set() if name in members else functions)
            if new != name:
                rows[name] = new
    return rows, kits


def in_code(text, rows, stays):
    return TOKEN.sub(lambda m: m[0] if m[0] in stays else rows.get(m[0], m[0]), text)


def in_comment(text, rows, stays):
    """A comment's code spans, and its words in camel case: a dash outside a span is the language's own."""
    spans = re.split(r"(`[^`]*`)", text)
    plain = {old: new for old, new in rows.items() if "-" not in old}
    return "".join(in_code(s, rows if s.startswith("`") else plain, stays) for s in spans)


def turned(path, text, rows, stays):
    mark = {"antt": "--", "rt": "//", "edit": "# "}[path.rsplit(".", 1)[1]]
    out = []
    for line in text.split("\n"):
        strings = r'"(?:[^"\\]|\\.)*"' if path.endswith(".rt") else r"(?!)"
        at = next((m.start() for m in re.finditer(strings + "|" + re.escape(mark), line) if m[0] == mark and (mark != "# " or m.start() == 0)), len(line))
        code = re.split(f"({strings})", line[:at])
        out.append("".join(c if i % 2 else in_code(c, rows, stays) for i, c in enumerate(code)) + in_comment(line[at:], rows, stays))
    return "\n".join(out)


def meetings(texts, rows, kits):
    """Names that would fall together: two that turn into one, or one that a file has already, or an argument or field of a source file."""
    said = []
    for path, text in texts.items():
        if path.endswith(".edit"):
            continue
        bare = re.sub(r"//[^\n]*|--[^\n]*", "", text)
        words = set(TOKEN.findall(bare))
        # a function of src/ may have its definition's name: no clause can call it
        taken = set(re.findall(r"(?:\blet (?:mut )?|\bconst )(\w+)|\b(\w+):(?!:)", bare)) if path.endswith(".rt") else set(re.findall(r"(?<![\w.'-])([\w'-]+)(?![\w.'-])", bare))
        taken = {w for it in taken for w in ((it,) if isinstance(it, str) else it)}
        back = collections.defaultdict(set)
        for old in words & set(rows):
            back[rows[old]].add(old)
        said += [f"{path}: {' and '.join(sorted(olds))} would both be {new}" for new, olds in sorted(back.items()) if len(olds) > 1]
        for old in sorted(words & set(rows)):
            if old not in kits.get(path, ()) and rows[old] in taken:
                said.append(f"{path}: {old} would be {rows[old]}, which the file has")
    return said


def main(argv):
    texts = {p: read(p) for p in files()}
    rows, kits = table(texts)
    if "--check" in argv:
        for line in meetings(texts, rows, kits):
            print("meets:", line)
        for old, new in sorted(rows.items()):
            print(f"{old}\t{new}")
        return 0
    n = 0
    for path, text in texts.items():
        new = turned(path, text, rows, kits.get(path, ()))
        if new != text:
            n += 1
            with open(path, "w", encoding="utf-8") as f:
                f.write(new)
    print(f"{len(rows)} names, {n} files")
    return 0


if __name__ == "__main__":
    raise SystemExit(main(sys.argv[1:]))
