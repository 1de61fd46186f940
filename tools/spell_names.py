#!/usr/bin/env python3
"""Gives the repository's own definitions and lemmas today's spelling: words in snake case, by the table names.tsv beside this file.

usage: python3 tools/spell_names.py [FOLDER]    after port.py, once, at the top of the repository (or in FOLDER)

Turns names in crates/*/specs and crates/*/proofs, in the clauses and `ghost use` lines of crates/*/src, and between backticks in comments.
In a function's Proof.antt only names that the file imports from a crate of the repository or declares as a helper: the others are Rattle's own.
A definition keeps the plain word; a lemma that would then have its definition's name ends in _lem.
"""
import os
import re
import sys

HERE = os.path.dirname(os.path.realpath(__file__))
ROOT = sys.argv[1] if len(sys.argv) > 1 else os.getcwd()
TABLE = dict(line.split("\t") for line in open(os.path.join(HERE, "names.tsv"), encoding="utf-8").read().split("\n") if line)
PLAIN = re.compile(r"^[a-z0-9_]+$")
TOKEN = re.compile(r'[^\s(){}\[\],;."`]+')
IMPORT = re.compile(r"(?m)^\s*(?:pub )?use (Rattle\.(?!std)[^\s{]+)\.\{([^}]*)\}")


def turned(text, is_wanted=lambda token, before: True):
    def one(m):
        token = m[0]
        if token not in TABLE or not is_wanted(token, text[max(0, m.start() - 1) : m.start()]):
            return token
        # a crate's name in a path is no definition
        if text[: m.start()].endswith("Rattle."):
            return token
        return TABLE[token]

    return TOKEN.sub(one, text)


def in_backticks(comment):
    return re.sub(r"`[^`]*`", lambda m: turned(m[0]), comment)


def by_lines(text, mark, turn):
    """Turns code and, in comments, what stands between backticks."""
    out = []
    for line in text.split("\n"):
        m = re.search(r"(^|\s)" + mark, line)
        at = m.start() if m else len(line)
        out.append(turn(line[:at]) + in_backticks(line[at:]))
    return "\n".join(out)


def of_proof(text):
    imported = {n.strip().split(" as ")[-1] for m in IMPORT.finditer(text) for n in m[2].split(",")}
    imported |= {n.strip().split(" as ")[0] for m in IMPORT.finditer(text) for n in m[2].split(",")}
    answers = set(re.findall(r"(?m)^(?:abbrev )?(\S+) : tie\.", text))
    helpers = set(re.findall(r"(?m)^(?:abbrev |unfoldable |pub )*([^\s:]+) : (?!tie\.)", text)) - answers
    helpers = {h for h in helpers if not h.endswith("-spec") and not h.endswith("_spec")}
    inner = set(re.findall(r"(?:let |where\n?\s+|in\s+)([^\s:=()]+) (?::|=) ", text)) | set(re.findall(r"(?m)^\s+([^\s:]+) : ", text))
    fields = {k for k in TABLE if "-" not in k}

    def is_wanted(token, before):
        if token in answers:
            return False
        if before == ".":
            return token in fields and not PLAIN.match(token)
        return token in imported or token in helpers or token in inner or re.search(r"[a-z][A-Z]", token) is not None

    def turn(line):
        return turned(line, is_wanted)

    return by_lines(text, "--", turn)


def main():
    for folder, dirs, files in os.walk(os.path.join(ROOT, "crates")):
        dirs[:] = sorted(d for d in dirs if d not in ("out", ".git"))
        for name in sorted(files):
            path = os.path.join(folder, name)
            if not name.endswith((".rt", ".antt")):
                continue
            with open(path, encoding="utf-8") as f:
                text = f.read()
            if name == "Proof.antt":
                new = of_proof(text)
            elif name.endswith(".rt"):
                # a word that is plain already is Rust's here, as the function entry_length
                new = by_lines(text, "//", lambda line: turned(line, lambda token, before: not PLAIN.match(token)))
            else:
                new = by_lines(text, "--", turned)
            if new != text:
                with open(path, "w", encoding="utf-8") as f:
                    f.write(new)


main()
