#!/usr/bin/env python3
"""Brings the names of definitions and lemmas to one spelling: words in snake case, and a dash only where it joins two names.

usage: tools/respell.py [--list]     at the top of the repository

It was run once, on what port.py had made of the landed sources, and fits no later text: a second run would turn the names by hand twice. A name
is one that a file right in specs/ or proofs/ declares: a definition, a lemma, a constructor or a field. Types keep their capitals, functions of src/ their names, and so does
what Rattle makes. It turns the code of .antt files, the clauses of .rt files, the lines of must-fail edits, and code spans in comments and
pages. --list prints the table of names and stops.
"""

import collections
import glob
import re
import sys

WORD = r"[^\s(){}.;,@\"«»`|\[\]]+"
TOKEN = re.compile(rf"(?<![^\s(){{}}.;,@\"«»`|\[\]])({WORD})")
DECLARED = re.compile(rf"(?:(?:unfoldable|abbrev|pub|opaque) )*(?:(data|record) )?({WORD})")
MEMBERS = re.compile(rf"\s+((?:{WORD} )*{WORD}) :(?:\s|$)")
# Names that would fall together with a function of src/ or with one another get another word.
BY_HAND = {
    "badVector": "bad_vector_place",
    "classBytes": "bytes_of_classes",
    "constantId": "id_of_constant",
    "fileNumber": "number_of_file",
    "fileNumbered": "file_of_number",
    "gateOp": "op_of_gate",
    "inputTop": "top_of_input",
    "isInput": "signal_is_input",
    "is_register": "signal_is_register",
    "modeWord": "word_of_mode",
    "normalTree": "tree_of_normal",
    "notLower": "operand_not_lower",
    "nothingYet": "part_of_nothing",
    "outputAt": "nth_output",
    "outputBytes": "bytes_of_output",
    "readClasses": "reading_of_classes",
    "readSheet": "reading_of_sheet",
    "reasonNumber": "number_of_reason",
    "reasonNumbered": "reason_of_number",
    "recordBytes": "bytes_of_record",
    "refusalNumbered": "refusal_of_number",
    "sheetBytes": "bytes_of_sheet",
    "signalAt": "nth_signal",
    "signalBytes": "bytes_of_signal",
    "startList": "start_list_of",
    "stepList": "step_list_of",
    "withRegister": "state_with_register",
    # Lemmas that have had their definition's name since the first turning.
    "same_class": "same_class_lem",
    "step_count": "step_count_lem",
    "step_same": "step_same_lem",
    "y_of": "y_of_lem",
    "tooMany": "exceeds_limits",
    "unknownKind": "kind_is_unknown",
    "withName": "part_with_name",
    "withOutput": "sheet_with_output",
    "withSheet": "part_with_sheet",
    "withSignal": "sheet_with_signal",
    "workedOf": "worked_of_made",
}
# Words of the library that a lemma's name may end in after a dash.
LIBRARY = set(
    "length map append take drop get_or set replicate concat zero suc add eqb ltb leb le lt eq cons nil and or not xor max min pow cond beq sets".split()
)


def files(*patterns):
    found = set()
    for p in patterns:
        found |= {f for f in glob.glob(p, recursive=True) if "/out/" not in f}
    return sorted(found)


def declared():
    """Every name that stands in a file right in specs/ or proofs/, and which of them are definitions, facts or types."""
    names, fields, plain = set(), set(), set()
    for path in files("crates/*/specs/*.antt", "crates/*/proofs/*.antt"):
        block = None
        for line in open(path, encoding="utf-8"):
            if not line.strip() or line.startswith(("--", "use ", "mod ", "pub mod ", "}", "]")):
                continue
            if not line.startswith(" "):
                m = DECLARED.match(line)
                if m and not m.group(2).startswith("-"):
                    block = m.group(1)
                    names.add(m.group(2))
                    if "/specs/" in path:
                        plain.add(m.group(2))
                continue
            m = MEMBERS.match(line)
            if not m or any(x in m.group(1) for x in "→λ≡("):
                continue
            found = [n for n in m.group(1).split() if n not in ("unfoldable", "abbrev", "pub", "opaque")]
            if found[0] in ("let", "in", "elim"):
                continue
            if block == "record":
                fields.update(found)
            else:
                # A constructor, or a definition or lemma of a section.
                names.update(found)
                if "/specs/" in path:
                    plain.update(found)
    return names, fields, plain


def snake(name):
    return re.sub(r"(?<=[a-z0-9])([A-Z])(?=[a-z])", lambda m: "_" + m.group(1).lower(), name.replace("getD", "get_or"))


def respelled(name, known):
    if name in BY_HAND:
        return BY_HAND[name]
    if not re.search(r"[a-zA-Z]", name) or "◌" in name:
        return name
    parts = [BY_HAND.get(p) or (snake(p) if p[:1].islower() else p) for p in name.split("-")]
    whole = parts[0]
    for left, right in zip(parts, parts[1:]):
        joins = left in known and right in known
        whole += ("-" if joins else "_") + right
    return whole


def table():
    names, fields, plain = declared()
    known = {BY_HAND.get(n) or snake(n) for n in plain if "-" not in n} | LIBRARY
    rows = {n: respelled(n, known) for n in names | fields}
    # A lemma that would have its function's name.
    owners = {rows[n] for n in names if "-" not in n}
    for n in names:
        if "-" in n and rows[n] in owners:
            rows[n] += "_lem"
    return {a: b for a, b in rows.items() if a != b}, names, fields


def clash(rows, names, fields):
    """Names that fall together: with one another, with a name that stays, or with a function of src/."""
    made = collections.defaultdict(set)
    for n in names | fields:
        made[rows.get(n, n)].add(n)
    code = set()
    for path in files("crates/*/src/**/*.rt"):
        code |= set(re.findall(r"\bfn (\w+)", open(path, encoding="utf-8").read()))
    return [(b, sorted(a)) for b, a in sorted(made.items()) if len(a) > 1 or (b in code and b in rows.values())]


def turn(text, rows, fields, alias=()):
    def one(m):
        name = m.group(1)
        if name not in rows:
            return name
        before = text[: m.start()]
        if before.endswith("."):
            head = re.search(r"[^\s(){};,@\"«»`|\[\]]*$", before).group(0)
            if head.startswith("Rattle."):
                # A path may lead through the folder of a function.
                if not head.split(".")[-2][:1].isupper() or text[m.end() :].startswith("."):
                    return name
            elif head[:-1] not in alias and name not in fields:
                return name
        return rows[name]

    return TOKEN.sub(one, text)


def spans(text, rows, fields):
    return re.sub(r"`[^`\n]+`", lambda m: "`" + turn(m.group(0)[1:-1], rows, fields) + "`", text)


def code(text, rows, fields):
    """Turns the code of an .antt file line by line; of a comment, code spans and words in camel case."""
    camel = {a: b for a, b in rows.items() if re.search("[a-z][A-Z]", a)}
    alias = {m.group(2) for m in re.finditer(r"(?m)^use (\S+) as (\S+)$", text) if m.group(1).split(".")[-1] not in ("Tie", "Goals", "Given")}
    out = []
    for line in text.split("\n"):
        at = re.search(r"(?<!\S)--(?=\s|$)", line)
        if at:
            note = line[at.start() :]
            line = turn(line[: at.start()], rows, fields, alias) + turn(spans(note, rows, fields), camel, set(camel))
        else:
            line = turn(line, rows, fields, alias)
        out.append(line)
    return "\n".join(out)


def source(text, rows, fields):
    """Turns ghost items and clauses of an .rt file; of a comment, code spans and words in camel case."""
    camel = {a: b for a, b in rows.items() if re.search("[a-z][A-Z]", a)}
    out, ghost = [], False
    for line in text.split("\n"):
        if re.match(r"\s*//", line):
            out.append(turn(spans(line, rows, fields), camel, set(camel)))
            continue
        if re.match(r"\s*(pub )?ghost |\s*(requires|ensures)\b|\s*#!?\[tactic", line):
            ghost = True
        out.append(turn(line, rows, fields) if ghost else line)
        if ghost and re.search(r"[;}]\s*$", line):
            ghost = False
    return "\n".join(out)


def main():
    rows, names, fields = table()
    if "--list" in sys.argv:
        for a, b in sorted(rows.items()):
            print(a, b)
        for b, a in clash(rows, names, fields):
            print("FALLS TOGETHER", b, a)
        return
    for pattern, how in (("crates/**/*.antt", code), ("crates/**/src/**/*.rt", source), ("crates/*/must-fail/*.edit", turn), ("**/*.md", spans)):
        for path in files(pattern):
            old = open(path, encoding="utf-8").read()
            new = how(old, rows, fields)
            if new != old:
                open(path, "w", encoding="utf-8").write(new)


main()
