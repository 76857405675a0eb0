#!/usr/bin/env python3
"""Spells the repository's own definitions and lemmas as Rattle's libraries spell theirs: words in snake case, a prime as an apostrophe.

usage: tools/respell.py [--list]

It takes the names that crates/*/specs/*.antt and crates/*/proofs/*.antt declare (definitions, lemmas, fields, constructors), and writes each
that has a capital behind a small letter, a dash or a prime anew, wherever it stands in .antt files, in the clauses and imports of .rt files,
and in must-fail edits. Functions of src/ keep their names. --list prints the table and the names that fall together, and writes nothing.
"""
import glob
import os
import re
import sys

TOKEN = re.compile(r'--[^\n]*|"(?:[^"\\]|\\.)*"|[^\s(){}.;,@"«»\[\]\\]+')
DECLARED = re.compile(r"^[ \t]*(?:(?:pub|abbrev|unfoldable|private|record|data|syntax|ruleset) )*([^\s(){}.;,@\"«»\[\]]+)(?: [^:=\n]*)? :(?: |$)", re.M)
CONSTRUCTOR = re.compile(r"^[ \t]*(?:pub )?([^\s(){}.;,@\"«»\[\]]+) :", re.M)
KEEP = {"where", "module", "use", "mod", "unfolding", "infix", "infixl", "infixr", "let", "in"}
# A lemma that would have its definition's name gets `_lem`.
LEMMAS = """axle-at pair-at pieces-most set-number account-count additional-lanes arguments-fit axle-fits chain-terms effect-size form-front form-part highway-verdict no-traffic one-of
patch-byte placed-lanes placed-sum row-bytes row-head row-of second-few set-of unbeaten-unladen under-hn under-ho"""
OTHERWISE = {it: it.replace("-", "_") + "_lem" for it in LEMMAS.split()} | {
    "jobAWords": "job_a_words",
    "jobABytes": "job_a_bytes",
    "getD-listOf": "get_or_list_of",
    "getD-nothing": "get_or_nothing",
}
# Lemmas that were in snake case already.
OTHERWISE |= {it: it + "_lem" for it in "chain_length lane_count set_sum span_fits".split()}
# Names of one file that would meet a definition that it uses.
LOCAL = {
    "crates/forms/proofs/Values.antt": {"row_count": "row_counts"},
    "crates/forms/proofs/Answers.antt": {"second_lanes": "second_lanes_same"},
    "crates/centres/proofs/LaneLimits.antt": {"second_lanes": "second_lanes_is"},
    "crates/rows/proofs/Loaded.antt": {"best_of": "best_of_both"},
    "crates/sets/proofs/Best.antt": {"count_at": "count_at_one"},
    "crates/sets/proofs/FirstSets.antt": {"first_count": "first_counts"},
    "crates/stands/proofs/Worst.antt": {"right_of": "right_of_way"},
}


def read(path):
    with open(path, encoding="utf-8") as it:
        return it.read()


def snake(name):
    name = name.replace("′", "'")
    if re.match(r"[a-z]", name):
        name = re.sub(r"(?<=[a-z0-9])([A-Z])(?=[A-Z](?![a-z])|[^A-Z]|$)", lambda m: "_" + m[1].lower(), name)
        name = re.sub(r"(?<=[a-z0-9])([A-Z]+)(?![a-z])", lambda m: "_" + m[1].lower(), name)
    return name.replace("-", "_")


def declared():
    found = {}
    for path in sorted(glob.glob("crates/*/specs/*.antt") + glob.glob("crates/*/proofs/*.antt")):
        text = re.sub(r"--[^\n]*", "", read(path))
        for name in DECLARED.findall(text) + CONSTRUCTOR.findall(text):
            if name not in KEEP and re.search(r"[A-Za-z]", name) and "◌" not in name:
                found.setdefault(name, []).append(path)
    return found


def table():
    names = declared()
    turned = {}
    for name in names:
        new = OTHERWISE.get(name, snake(name))
        if new != name and not re.fullmatch(r"[-+*<>=≤≡∙]+", name):
            turned[name] = new
    return names, turned


def in_function(path):
    return "/proofs/" in path and path.split("/proofs/", 1)[1].count("/") > 0


def turn(path, text, turned):
    def each(m):
        word = m[0]
        if word not in turned or word.startswith("--") or word.startswith('"'):
            return word
        behind = text[m.start() - 1 : m.start()]
        if behind == "." and ("_" in word or in_function(path) and "-" in word):
            return word
        return turned[word]

    return TOKEN.sub(each, text)


def turn_rt(text, turned):
    """Imports for clauses, and clauses: what stands between the braces behind their heads. They name no lemma."""
    turned = {old: new for old, new in turned.items() if not new.endswith("_lem")}
    out, at = [], 0
    for m in re.finditer(r"^\s*(?:pub )?ghost use [^;]*;|^\s*(?:requires|ensures|invariant|ghost)\*?(?: \w+)?:? \{", text, re.M):
        if m.start() < at:
            continue
        end = m.end()
        if text[end - 1] == "{":
            depth = 1
            while depth:
                depth += {"{": 1, "}": -1}.get(text[end], 0)
                end += 1
        out += [text[at : m.start()], turn("", text[m.start() : end], turned)]
        at = end
    return "".join(out) + text[at:]


def main(argv):
    names, turned = table()
    news = {}
    for old, new in turned.items():
        news.setdefault(new, []).append(old)
    for new, olds in sorted(news.items()):
        if len(olds) > 1 or new in names:
            print(f"look: {new}: {' '.join(olds)}{' and itself' if new in names else ''}: {' '.join(sorted({p for it in olds + [new] for p in names.get(it, [])}))}")
    if "--list" in argv:
        for old, new in sorted(turned.items()):
            print(old, new)
        return 0
    for path in sorted(glob.glob("crates/*/**/*.antt", recursive=True) + glob.glob("crates/*/src/**/*.rt", recursive=True) + glob.glob("crates/*/must-fail/*.edit")):
        if "/out/" in path:
            continue
        text = read(path)
        here = LOCAL.get(path, {})
        new = turn_rt(text, turned) if path.endswith(".rt") else turn(path, text, turned | here)
        if path.endswith(".edit"):
            new = "".join(turn("", line, turned) if line.startswith(("old:", "new:")) else line for line in text.splitlines(keepends=True))
        if new != text:
            with open(path, "w", encoding="utf-8") as it:
                it.write(new)
    return 0


if __name__ == "__main__":
    os.chdir(os.path.join(os.path.dirname(os.path.realpath(__file__)), ".."))
    sys.exit(main(sys.argv[1:]))
