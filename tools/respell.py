#!/usr/bin/env python3
"""Spells this repository's own definitions and lemmas as Rattle's style asks: words in snake case, no dash and no middle dot.

usage: python3 tools/respell.py [--check]

Run it once, at the top, after the kit's port.py. It gathers the names that specs/ and proofs/ declare, turns each that is in
camel case or has a dash, and writes every place in .antt files and in the ghost parts of .rt files. Names of the library, names
that Rattle makes for the goals of a proof, functions of src/, strings and inputs stay. It prints names that fall together and
writes the table of what it turned to tools/respelled.tsv. --check writes nothing.
"""

import collections
import glob
import re
import sys

WORD = re.compile(r"[^\s(){}\[\].;,@\"«»`]+")
DECLARED = re.compile(r"^[ ]*(?:abbrev |unfoldable )*(?:pub )?(?:record |data |ruleset )?([^\s:(){}.;,@\"«»]+)(?: [^:\n]*?)?\s*:(?=\s)", re.M)
# Aliases of the kit's words that the older spelling wrote with a middle dot.
ALIASES = {
    "Bool·beq": "bool_beq",
    "Iff·symm": "iff_symm",
    "Iff·trans": "iff_trans",
    "List·Memᴰ": "Memᴰ",
    "List·Memᴰ·append-cases": "Memᴰ-append_cases",
    "List·Memᴰ·cases-cons": "Memᴰ-cases_cons",
    "List·Memᴰ·eq-of-singleton": "Memᴰ-eq_of_singleton",
    "List·Memᴰ·head": "Memᴰ-head",
    "List·Memᴰ·not-nil": "Memᴰ-not_nil",
    "List·Memᴰ·tail": "Memᴰ-tail",
    "Memᴰ·append-left": "Memᴰ-append_left",
    "Memᴰ·append-right": "Memᴰ-append_right",
    "Memᴰ·cast": "Memᴰ-cast",
    "List·getD-append": "get_or-append",
    "List·getD-eq-default": "get_or-eq_default",
    "List·getD-map": "get_or-map",
}


def read(path):
    with open(path, encoding="utf-8") as f:
        return f.read()


def bare(text):
    """The text with comments and strings blanked."""
    return re.sub(r'"(?:[^"\\\n]|\\.)*"|--[^\n]*', lambda m: " " * len(m[0]), text)


def snake(name):
    out = name.replace("-", "_").replace("′", "'")
    if out[:1].isupper():
        return out
    out = re.sub(r"([a-z0-9])([A-Z])", r"\1_\2", out)
    out = re.sub(r"([A-Z])([A-Z][a-z])", r"\1_\2", out)
    return out.lower() if re.fullmatch(r"[\x00-\x7f]*", out) else re.sub(r"[A-Z]", lambda m: m[0].lower(), out)


def gather(files):
    """Declared names with the files that declare them, and the names that lines `use` of the library bring in."""
    declared, brought = collections.defaultdict(set), collections.defaultdict(set)
    for path in files:
        text = bare(read(path))
        for m in re.finditer(r"^(?:pub )?use ([^\s{]+)\.\{([^}]*)\}", text, re.M):
            own = m[1].startswith("Rattle.") and not m[1].startswith("Rattle.std.")
            for item in m[2].split(","):
                word = item.strip().split(" as ")[0].strip()
                if word and not own:
                    brought[word].add(path)
        if path.endswith("/Proof.antt"):
            # What a proof file calls its goals is Rattle's spelling; only its own lemmas turn.
            for m in re.finditer(r"^(?:abbrev )?(?:pub )?([^\s:(){}.;,@\"«»]+) :((?:[^\n]|\n[ ]+→|\n[ ]{4,})*)", text, re.M):
                if "tie." not in m[2] and "statement M" not in m[2]:
                    declared[m[1]].add(path)
            continue
        for m in DECLARED.finditer(text):
            declared[m[1]].add(path)
    return declared, brought


def turns(declared, brought, files):
    table, clashes = {}, []
    for name in sorted(declared):
        new = snake(name)
        if new == name or not re.match(r"[^\W\d]", name):
            continue
        if name in brought:
            clashes.append(f"stays, a name of the library: {name}")
            continue
        table[name] = new
    # Where a lemma and a word fall together, the lemma gets `_lem`.
    def lemma(name, new):
        if new + "_lem" in declared or new + "_lem" in table.values():
            clashes.append(f"no name left for {name}")
        table[name] = new + "_lem"

    by_new = collections.defaultdict(list)
    for name, new in table.items():
        by_new[new].append(name)
    for new, olds in sorted(by_new.items()):
        if len(olds) > 1:
            dashed = [o for o in olds if "-" in o]
            if len(dashed) == 1 and len(olds) == 2:
                lemma(dashed[0], new)
                olds = [o for o in olds if o not in dashed]
            else:
                clashes.append(f"fall together as {new}: {', '.join(f'{o} ({sorted(declared[o])[0]})' for o in olds)}")
        if new in declared:
            if "-" in olds[0]:
                lemma(olds[0], new)
            elif all("/proofs/" in f for f in declared[new]):
                lemma(new, new)
            else:
                clashes.append(f"falls together with a name that is there: {olds} -> {new} ({sorted(declared[new])[0]})")
        if new in brought and "-" in olds[0]:
            lemma(olds[0], new)
        elif new in brought:
            clashes.append(f"falls together with a name of the library: {olds} -> {new} ({sorted(brought[new])[0]})")
    # A new name that a file has already, as a variable or a field.
    for path in files:
        words = set(WORD.findall(bare(read(path))))
        for old in sorted(words & set(table)):
            if table[old] in words and table[old] not in table and table[old] != old:
                clashes.append(f"stands in {path} already: {old} -> {table[old]}")
    return table, clashes


def antt(text, table):
    def word(m):
        return table.get(m[0], m[0])

    # The path of a `use` names folders and files, which stay.
    def code(part):
        path = re.compile(r"(?<![^\s])use [^\s{]+")
        out, at = [], 0
        for m in path.finditer(part):
            out += [WORD.sub(word, part[at : m.start()]), m[0]]
            at = m.end()
        return "".join(out) + WORD.sub(word, part[at:])

    out, at = [], 0
    for m in re.finditer(r'"(?:[^"\\\n]|\\.)*"|--[^\n]*', text):
        out.append(code(text[at : m.start()]))
        out.append(m[0] if m[0][0] == '"' else re.sub(r"`[^`]*`", lambda s: code(s[0]), m[0]))
        at = m.end()
    return "".join(out) + code(text[at:])


CLAUSE = re.compile(r"(?:requires|ensures)\*?\s*(?:\w+\s*)?\{|ghost\s*(?:\w+\s*(?::\s*)?)?\{")
GHOST_USE = re.compile(r"ghost\s+use\b[^;]*;")


def closing(text, i):
    deep = 0
    for k in range(i, len(text)):
        deep += (text[k] == "{") - (text[k] == "}")
        if not deep:
            return k + 1
    return len(text)


def rt(text, table):
    out, at = [], 0
    for m in re.finditer(r"//[^\n]*|" + CLAUSE.pattern + "|" + GHOST_USE.pattern, text):
        if m.start() < at:
            continue
        out.append(text[at : m.start()])
        if m[0].startswith("//"):
            out.append(re.sub(r"`[^`]*`", lambda s: antt(s[0], table), m[0]))
            at = m.end()
            continue
        end = m.end() if m[0].startswith("ghost use") else closing(text, m.end() - 1)
        out.append(m[0] if not m[0].startswith("ghost use") else "")
        out.append(antt(text[m.end() if not m[0].startswith("ghost use") else m.start() : end], table))
        at = end
    return "".join(out) + text[at:]


def main():
    check = "--check" in sys.argv
    files = sorted(f for k in ("specs", "proofs") for f in glob.glob(f"crates/*/{k}/**/*.antt", recursive=True))
    sources = sorted(glob.glob("crates/*/src/**/*.rt", recursive=True))
    declared, brought = gather(files)
    table, clashes = turns(declared, brought, files)
    # A parameter hides a word of its name in a clause.
    for path in sources:
        text = read(path)
        rust = set(re.findall(r"\b(\w+)\s*:(?!:)", re.sub(r"//[^\n]*", "", text)))
        ghost = set(w for g in re.findall(r"ghost use[^;]*;", text) for w in WORD.findall(g))
        for old in ghost & set(table):
            if table[old] in rust:
                clashes.append(f"hidden by a parameter or field in {path}: {old} -> {table[old]}")
    print("\n".join(clashes))
    print(f"{len(table)} names turn, {len(clashes)} to look at")
    table.update(ALIASES)
    if check:
        return
    for path in files:
        text = read(path)
        new = antt(text, table)
        # An alias that its name has become.
        new = re.sub(r"(?<=[{ ])([^\s,{}]+) as \1(?=[,}])", r"\1", new)
        if new != text:
            with open(path, "w", encoding="utf-8") as f:
                f.write(new)
    for path in sources:
        text = read(path)
        new = rt(text, table)
        if new != text:
            with open(path, "w", encoding="utf-8") as f:
                f.write(new)
    with open("tools/respelled.tsv", "w", encoding="utf-8") as f:
        f.write("".join(f"{old}\t{new}\n" for old, new in sorted(table.items())))


main()
