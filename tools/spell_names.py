#!/usr/bin/env python3
"""Spells the repository's own definitions and lemmas in snake case, in every crate, edit and page.

usage: python3 tools/spell_names.py            at the top of the repository: rewrites the files in place
       python3 tools/spell_names.py --list     prints each old name and its new one, and changes nothing

It stands beside the kit's port.py, which spells the library's names anew and leaves most of ours. A name is ours if a
file of specs/ or proofs/ declares it. A name that a proof of a function answers by (its type is of the module `tie`) is
Rattle's, and stays. Names of Rust functions, exported names, strings, inputs and outputs stay. A lemma that would have
its function's name gets _lem. If two names would fall together all the same, the script stops and changes nothing. It
runs once, on what port.py leaves: where no proof is of the older form it does nothing.
"""

import os
import re
import sys

NAME = r'[^\s(){}.;,@"«»]+'
TOKEN = re.compile(rf"(?<![^\s(){{}}.;,@\"«»]){NAME}")
DECLARED = re.compile(r"(?m)^ *(?:(?:abbrev|unfoldable|pub|pattern) )*([^\s:(){}.;,@\"«»]+)(?: \{[^{}\n]*\})* :(?!:)(.*)$")
FIELD = re.compile(r"(?<![^\s{;])([^\s:(){}.;,@\"«»]+) :(?!:)")
CODE = re.compile(r"`[^`\n]*`")
# A name that a binder or a pattern gives.
LOCAL = re.compile(r"[a-z][a-z_]*[A-Z]([a-z]+[A-Z]?)*")

# Lemmas and local names that would be called as a definition or a function now is, file by file.
OTHER = {
    "crates/parsimony/proofs/Cases.antt": {"cell-at": "cell_at_lem"},
    "crates/parsimony/proofs/Demand2.antt": {"cell-at": "cell_at_lem"},
    "crates/cuts/proofs/AnyNodes.antt": {"in_rest": "in_rest_lem"},
    "crates/cuts/proofs/PlanMade.antt": {"in_rest": "in_rest_lem"},
    "crates/cuts/proofs/PlanResults.antt": {"in_rest": "in_rest_lem"},
    "crates/row_step/proofs/LaneLaws.antt": {"kept_entry": "kept_entry_lem"},
    "crates/sheet_names/proofs/NamesLaws.antt": {"is_name": "name_line"},
    "crates/sheet_tips/proofs/TokenLaws.antt": {"token_end": "token_end_lem"},
    "crates/sheet_tips/proofs/token_end/Proof.antt": {"token_end": "token_end_lem"},
    "crates/sheet_tree/proofs/NameLaws.antt": {"token_end": "token_end_lem"},
}


def texts(top, endings):
    for folder, dirs, files in os.walk(top):
        dirs[:] = sorted(d for d in dirs if d not in ("out", ".git", "target"))
        for f in sorted(files):
            if f.endswith(endings):
                yield os.path.join(folder, f)


def read(path):
    with open(path, encoding="utf-8") as f:
        return f.read()


def in_snake_case(name):
    words = re.sub(r"(?<=[a-z0-9])[A-Z]", lambda m: "_" + m[0].lower(), name)
    return words.replace("-", "_").replace("′", "'")


def without_comments(text):
    return re.sub(r"(?m)(?<!\S)--(?=\s|$).*$", "", text)


def is_ours(name):
    return bool(re.match(r"[a-z]", name)) and re.fullmatch(r"[\w'′₀-₉-]+", name) is not None


def declared():
    """The names that files of specs/ and proofs/ declare, Rattle's, and those that stand in each file, but for paths."""
    ours, rattles, seen = set(), set(), {}
    for path in texts("crates", (".antt",)):
        text = without_comments(read(path))
        seen[path] = {m[0] for m in TOKEN.finditer(text) if text[m.start() - 1 : m.start()] != "." and text[m.end() : m.end() + 1] != "."}
        ours |= {w for w in seen[path] if LOCAL.fullmatch(w)}
        for m in DECLARED.finditer(text):
            if not is_ours(m[1]):
                continue
            if path.endswith("/Proof.antt") and re.search(r"\b(?:tie|goal)\.", m[2]):
                rattles.add(m[1])
            else:
                ours.add(m[1])
    return ours, rattles, seen


def renaming():
    ours, rattles, seen = declared()
    new = {n: in_snake_case(n) for n in sorted(ours) if in_snake_case(n) != n and n not in rattles}
    functions = {to for old, to in new.items() if "-" not in old}
    for old, to in new.items():
        if "-" in old and to in functions:
            new[old] = to + "_lem"
    taken = {}
    for old, to in new.items():
        taken.setdefault(to, []).append(old)
    met = [f"{' and '.join(olds)} would all be {to}" for to, olds in taken.items() if len(olds) > 1]
    for path, words in seen.items():
        words = words - set(OTHER.get(path, {}))
        met += [f"{path}: {old} would meet {to}" for old, to in new.items() if to in words and to not in new]
    return new, met


def turned(text, new):
    return TOKEN.sub(lambda m: new.get(m[0], m[0]), text)


def with_types(text):
    """`below` and `between` of Written, which are facts, spelled as types where they come from there."""
    if not re.search(r"specs\.Written\.\{[^}]*\bbelow\b|^abbrev pub below :", text, re.M):
        return text
    text = re.sub(r"(specs\.Written\.\{[^}]*)\bbelow\b", r"\1Below", text)
    text = re.sub(r"(?m)^(abbrev pub )?below(?= : | n i = )", r"\1Below", text)
    text = re.sub(r"(?m)^(abbrev pub )?between(?= : | at n i = )", r"\1Between", text)
    return text.replace("(below ", "(Below ").replace("(between ", "(Between ")


def with_other_names(text, path, new):
    """The text with the names of OTHER for this file, unless it was spelled anew already. A path's words stay."""

    def other(m):
        alone = text[m.start() - 1 : m.start()] != "." and text[m.end() : m.end() + 1] != "."
        return OTHER[path].get(m[0], m[0]) if alone else m[0]

    if path in OTHER and any(o in text for o in new):
        return TOKEN.sub(other, text)
    return text


def turn_antt(text, new):
    lines = []
    for line in text.split("\n"):
        cut = re.search(r"(?<!\S)--(?=\s|$)", line)
        code, comment = (line[: cut.start()], line[cut.start() :]) if cut else (line, "")
        lines.append(turned(code, new) + turn_words(comment, new))
    return "\n".join(lines)


def turn_words(text, new):
    """Plain words: a name with a dash only between backticks, since a word may have a dash."""
    camel = {o: n for o, n in new.items() if "-" not in o}
    text = CODE.sub(lambda m: "`" + turned(m[0][1:-1], new) + "`", text)
    return re.sub(r"[A-Za-z_][\w'′]*(?![\w-])", lambda m: camel.get(m[0], m[0]), text)


def turn_rattle(text, new):
    lines = []
    for line in text.split("\n"):
        cut = re.search(r"(?<!\S)//", line)
        code, comment = (line[: cut.start()], line[cut.start() :]) if cut else (line, "")
        lines.append((code if '"' in code else turned(code, new)) + turn_words(comment, new))
    return "\n".join(lines)


def turn_edit(text, new):
    return "\n".join(turned(l, new) if re.match(r"(old|new):", l) else l for l in text.split("\n"))


def main(argv):
    if not any(path.endswith("/Proof.antt") for path in texts("crates", (".antt",))):
        print("spell_names: the proofs are of today's form, and the names were spelled before: nothing to do")
        return 0
    new, met = renaming()
    if argv == ["--list"]:
        print("\n".join(f"{o} {n}" for o, n in new.items()))
    if met:
        print("\n".join(met), file=sys.stderr)
        return 1
    if argv:
        return 0
    for top, ending, turn in [
        ("crates", ".antt", turn_antt),
        ("crates", ".rt", turn_rattle),
        ("crates", ".edit", turn_edit),
        ("crates", ".md", turn_words),
        ("docs", ".md", turn_words),
    ]:
        for path in texts(top, (ending,)):
            old = read(path)
            text = turn(with_other_names(with_types(old), path, new), new)
            if text != old:
                with open(path, "w", encoding="utf-8") as f:
                    f.write(text)
    return 0


if __name__ == "__main__":
    raise SystemExit(main(sys.argv[1:]))
