#!/usr/bin/env python3
"""respell.py [--check]: the repository's own definitions and lemmas in today's spelling, run once after port.py, at the top.

Words are in snake case (verdictOf is verdict_of), functions into Type in camel case, a dash joins two names and a plain word hangs on by an
underscore (many-none is many_none), and a lemma that would have its function's name ends in _lem. Functions of src/, labels of contracts
and loops, and text in quotes keep their names. --check prints the table and writes nothing."""
import collections
import os
import re
import sys

WORD = re.compile(r"[^\s(){}.;,@\"«»\[\]`]+")
# Functions into Type: these by their name alone, and these in one crate.
FACTS = {"anyProgram": "AnyProgram", "isBuiltIn": "IsBuiltIn"}
TYPES = {"facts": {"any": "Any"}, "stepping": {"keeps": "Keeps", "kin": "Kin", "sizing": "Sizing"}}
# Plain words that some definition of this repository has for its name, and that yet hang on to a name.
PLAIN = {"none", "bad", "ok", "next", "stop", "done", "end", "past", "here", "there", "at", "by", "of", "is", "as", "in", "on", "same", "other", "false", "true", "up", "below", "above", "via", "last", "first", "own", "found", "left", "right", "start", "self", "one", "two", "no", "not", "now", "known", "more"}
STD = {"length", "take", "drop", "append", "get_or", "set", "slice_set", "reverse", "replicate", "map", "add", "mul", "sub", "le", "lt", "eq", "eqb", "ltb", "leb", "nat_lt", "nat_le", "cond", "T", "suc", "zero", "and", "or", "div", "mod"}
HEAD = re.compile(r"^( *)((?:(?:pattern|unfoldable|abbrev|pub|data|record|ruleset|axiom|infixl?r?) +)*)([^\s:]+(?: [^\s:(){}=]+)*?) :(?: |$)")


def paths(*kinds):
    for top, folders, files in os.walk("crates"):
        folders[:] = [f for f in folders if f != "out"]
        for name in sorted(files):
            if name.endswith(kinds):
                yield os.path.join(top, name)


def read(path):
    with open(path, encoding="utf-8") as file:
        return file.read()


def snake(part):
    if part == "getD":
        return "get_or"
    part = re.sub(r"([a-z0-9'])([A-Z])", r"\1_\2", part)
    return re.sub(r"([A-Z])([A-Z][a-z])", r"\1_\2", part).lower()


def low(word):
    return "-".join(snake(p) if p[:1].islower() and re.search("[A-Z]", p) else p for p in word.split("-"))


def code(text, kind):
    return re.sub(r"//[^\n]*" if kind else r"--[^\n]*", "", text)


def declared():
    """Names declared in specs/ and in proofs/ beside the folders of functions, and which of them are definitions."""
    lemmas, definitions = set(), set()
    for path in paths(".antt"):
        where = path.split(os.sep)
        if len(where) != 4:
            continue
        inside = None
        for line in read(path).splitlines():
            found = HEAD.match(line)
            if inside is not None and line.strip() and not line.startswith(inside + " "):
                inside = None
            if not found:
                continue
            indent, marks, names = found.groups()
            for name in names.split():
                if inside is not None or re.search("unfoldable|abbrev|data|record", marks):
                    definitions.add(name)
                else:
                    lemmas.add(name)
            if re.search(r"data|record", marks):
                inside = indent
    return lemmas - definitions, definitions


def joined(name, names):
    """The dashes of a lemma's name, each kept where it joins two names."""
    parts = name.split("-")
    text = parts[0]
    for a, b in zip(parts, parts[1:]):
        both = (a in names or a in STD) and (b in names or b in STD) and not {a, b} & PLAIN
        keep = a[:1].isupper() or b[:1].isupper() and b in names or both
        text += ("-" if keep else "_") + b
    return text


def table():
    words = collections.defaultdict(set)
    for path in paths(".antt", ".rt"):
        for word in WORD.findall(code(read(path), path.endswith(".rt"))):
            words[word].add(path)
    lemmas, definitions = declared()
    turned = {word: FACTS.get(word, low(word)) for word in words if low(word) != word}
    names = {low(name) for name in definitions if "-" not in name}
    labels = {m for p in paths("Proof.antt") for m in re.findall(r"^([a-z][^\s:]*) :", read(p), re.M)}
    taken = {turned.get(w, w) for w in words}
    lems = {}
    for name in sorted(lemmas):
        new = turned.get(name, name)
        if "-" in new and name not in labels:
            short = joined(new, names)
            if short != new and short not in taken:
                taken.add(short)
                turned[name] = short
        elif new in {turned[w] for w in turned if w != name} and name not in turned:
            lems[name] = new + "_lem"
    return turned, lems


def turn(text, path, turned, lems):
    own = TYPES.get(path.split(os.sep)[1], {}) if path.endswith(".antt") else {}
    cited = {n for n in lems if path.endswith(".antt") and re.search(r"(?m)(^ *(pub )?%s :)|^use [^\n]*[{ ]%s[,}]" % (re.escape(n), re.escape(n)), text)}
    said = [m.span() for m in re.finditer(r"--[^\n]*", text)] if own else []
    quoted = [m.span() for m in re.finditer(r'"(?:[^"\\\n]|\\.)*"', text)] if path.endswith(".rt") else []

    def word(m):
        w = m.group()
        if any(a <= m.start() < b for a, b in quoted):
            return w
        if w in own and text[m.start() - 1] != "." and not any(a <= m.start() < b for a, b in said):
            return own[w]
        if w in cited and text[m.start() - 1] != "." and text[m.end() : m.end() + 1] != ".":
            return lems[w]
        return turned.get(w, w)

    return WORD.sub(word, text)


def main():
    turned, lems = table()
    if "--check" in sys.argv:
        for old, new in sorted({**turned, **lems}.items()):
            print(old, new)
        return
    for path in [*paths(".antt", ".rt", ".edit")]:
        text = read(path)
        done = turn(text, path, turned, lems)
        if done != text:
            with open(path, "w", encoding="utf-8") as file:
                file.write(done)
    print("%d names, %d lemmas beside their function's name" % (len(turned), len(lems)))


main()
