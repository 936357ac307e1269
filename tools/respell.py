#!/usr/bin/env python3
"""Spells the names that this repository's definitions and lemmas declare as today's Rattle does: in snake case, a type's or a fact's capital kept.

usage: python3 tools/respell.py [--look] [TOP]      once, at the top of a repository that port.py has turned; TOP is the folder, here if it is missing.
--look writes nothing, and lists the names that would fall together in a file.

What turns: names declared in specs/ and in the lemma files of proofs/, wherever a text of crates/ (.antt, clauses of .rt, .edit) has them, and in the
pages' and comments' code spans. What stays: Rust's own names, strings, goals and labels that Rattle makes, and names that a file has from a library.
A lemma that would get a definition's name ends in _lem (LEMMAS). It runs once. It proves nothing: rt check decides.
"""

import os
import re
import sys

# Lemmas whose plain spelling a definition takes, in a file that has both.
LEMMAS = (
    "admitted-by admitted_by bytes-is credit-in credits-in drop-launch drop-streams end-grace every-stream give-up given-up "
    "heard-as if-due in-first in-range is-fit is-good is_digit made_at noted-as number-from number_is on_one open_by "
    "opened-by pass-abandonment pass-give-up pass-grace pass-settlement pass-timeout received-if sent-by signed_is "
    "taken-by "
).split()

# A lemma about a word of the kit that has another name now.
OTHERWISE = {"getD-append-ge": "get_or_append_ge"}

WORD = r'[^\s(){}.;,@"«»`]+'
ODD = re.compile(r"[a-z0-9][A-Z]|[^\W_]-[^\W_]")
HEAD = re.compile(r'^ *(?:(?:abbrev|opaque|unfoldable|pub|instance)\s+)*([^\s(){}.;,@"«»:=|]+)(?: \{[^{}\n]*\}| \([^()\n]*\))* :(?= |$)', re.M)
LOCAL = re.compile(rf"\blet ({WORD}) [:=]")
QUIET = re.compile(r'"(?:[^"\\\n]|\\.)*"|(?<![^\s(){}.;,@"«»])--[^\n]*|\{-.*?-\}', re.S)
USE = re.compile(r"\buse ([^\s;{]+)(\{[^;]*?\}(?=;|[ \t]*$))?(?: as ([^\s;]+))?", re.M)
MADE = re.compile(r"/proofs/(?:.*/)?(?:Answers|Invariants|Proof)\.antt$")
TOKEN = re.compile(rf'"(?:[^"\\\n]|\\.)*"|(?<![^\s(){{}}.;,@"«»])--[^\n]*|\{{-.*?-\}}|{WORD}', re.S)
RUST = re.compile(r"//[^\n]*|b?\"(?:[^\"\\]|\\.)*\"|\w+(?:[-'\w])*")
SPAN = re.compile(r"`[^`\n]+`")
SKIPPED = {"out", "target", ".git"}


def snake(name):
    return re.sub(r"(?<=[a-z0-9])[A-Z](?![A-Z])", lambda m: "_" + m[0].lower(), name).replace("-", "_")


def texts(top):
    for folder, dirs, names in os.walk(top):
        dirs[:] = sorted(d for d in dirs if d not in SKIPPED or os.path.basename(folder) == "crates")
        for name in sorted(names):
            if name.endswith((".antt", ".rt", ".edit", ".md")):
                yield os.path.join(folder, name)


def read(path):
    with open(path, encoding="utf-8") as f:
        return f.read()


def crates(top):
    inside = os.path.join(top, "crates")
    return {it for it in os.listdir(inside) if os.path.isdir(os.path.join(inside, it))}


def names_of(top):
    """The names that specs/ and lemma files declare, local ones among them."""
    names = set()
    for path in texts(os.path.join(top, "crates")):
        if path.endswith(".antt"):
            code = QUIET.sub(" ", read(path))
            if not MADE.search(path):
                names.update(HEAD.findall(code))
            names.update(LOCAL.findall(code))
            names.update(alias for _, items, alias in USE.findall(code) if alias and not items)
            names.update(new for _, new in re.findall(rf"({WORD}) as ({WORD})", code))
    return names


def declared(top):
    """Their new spelling, of those that get another."""
    table = {it: snake(it) for it in names_of(top) if ODD.search(it) and not it[0].isupper()}
    table.update({it: snake(it) + "_lem" for it in LEMMAS} | OTHERWISE)
    return {old: new for old, new in table.items() if old != new}


def of_library(code, own):
    """The names that a file takes from the kit."""
    found = set()
    for path, items, alias in USE.findall(code):
        steps = path.split(".")
        if not (steps[0] == "Rattle" and len(steps) > 1 and steps[1] in own):
            found.update(re.findall(WORD, items) or [alias or steps[-1]])
    return found


def in_spans(text, table):
    """A comment or a page: its code spans, and a word that can be nothing but a name."""
    text = SPAN.sub(lambda m: re.sub(WORD, lambda w: table.get(w[0], w[0]), m[0]), text)
    return re.sub(WORD, lambda w: table.get(w[0], w[0]) if re.search("[a-z0-9][A-Z]", w[0]) else w[0], text)


def antt(text, path, table):
    made = set(re.findall(rf"(?m)^ *(?:\w+ )*({WORD}) : goal\.", text)) if MADE.search(path) else set()

    def turn(m):
        word = m[0]
        if word.startswith(("--", "{-")):
            return in_spans(word, table)
        if word.startswith('"') or word in made:
            return word
        if MADE.search(path) and re.search(r"(?<![^\s({,;])(?:goal|c|w|l|g)\.$", text[max(0, m.start() - 6) : m.start()]):
            return word
        return table.get(word, word)

    return TOKEN.sub(turn, text)


def rt(text, table):
    def turn(m):
        word = m[0]
        if word.startswith("//"):
            return in_spans(word, table)
        return word if '"' in word else table.get(word, word)

    return RUST.sub(turn, text)


def edit(text, table, here, own):
    """An edit's texts are turned as the file is that they change."""
    out, path = [], ""
    for line in text.split("\n"):
        key, _, rest = line.partition(": ")
        if key == "file":
            path = os.path.join(os.path.dirname(os.path.dirname(here)), rest)
            code = QUIET.sub(" ", read(path)) if path.endswith(".antt") and os.path.exists(path) else ""
            fits = {old: new for old, new in table.items() if old not in of_library(code, own)}
        elif key in ("old", "new"):
            line = key + ": " + (antt(rest, path, fits) if path.endswith(".antt") else rt(rest, fits))
        else:
            line = in_spans(line, table)
        out.append(line)
    return "\n".join(out)


def turned(path, text, table, own):
    if path.endswith(".antt"):
        taken = of_library(QUIET.sub(" ", text), own)
        return antt(text, path, {old: new for old, new in table.items() if old not in taken})
    if path.endswith(".rt"):
        return rt(text, table)
    if path.endswith(".edit"):
        return edit(text, table, path, own)
    # a page: what stands indented is code, where a word of LEMMAS is no name (`give-up`)
    shown = {old: new for old, new in table.items() if old not in LEMMAS}
    return "\n".join(re.sub(WORD, lambda w: shown.get(w[0], w[0]), l) if l.startswith("    ") else in_spans(l, table) for l in text.split("\n"))


def clashes(path, text, table):
    """Names that would fall together in a file: two that get one spelling, or one whose spelling stood there already."""
    code = QUIET.sub(" ", text) if path.endswith(".antt") else re.sub(r'//[^\n]*|"(?:\\.|[^"\\])*"', " ", text)
    words = set(re.findall(WORD, code))
    by = {}
    for old in words & set(table):
        by.setdefault(table[old], set()).add(old)
    return [(it, sorted(olds | ({it} & words))) for it, olds in sorted(by.items()) if len(olds | ({it} & words)) > 1]


def main(argv):
    look = "--look" in argv
    top = next((it for it in argv if not it.startswith("--")), ".")
    own, table = crates(top), declared(top)
    if "on_one_lem" in names_of(top):
        sys.exit("respell: this repository is respelled already")
    n = 0
    files = [(path, read(path)) for path in texts(top) if not path.endswith("/docs/PORT.md")]
    for path, text in files:
        new = turned(path, text, table, own)
        if look:
            for it, olds in clashes(path, text, table) if path.endswith((".antt", ".rt")) else []:
                print(f"look: {path}: {', '.join(olds)} -> {it}")
        elif new != text:
            n += 1
            with open(path, "w", encoding="utf-8") as f:
                f.write(new)
    print(f"respell: {len(table)} names, {n} files")


if __name__ == "__main__":
    main(sys.argv[1:])
