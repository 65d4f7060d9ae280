#!/usr/bin/env python3
"""Spells the names of definitions and laws as Rattle's own library does: blockAt as block_at, find-refused as find_refused.

usage: python3 tools/snake_names.py [--check]      at the top of the repository

It turns whole words alone: all code of specs/ and proofs/; of src/ the clauses, ghost imports and attributes; of comments the names
with a capital inside, and those with a dash where they stand in backquotes; must-fail edits; code spans and blocks of the pages.
Strings stay, and so do types, modules, what a file imports from a library, the labels that Rattle makes of the source, and Rust's own
names. A law that would have the name of a definition, or of what its file imports, gets '_lem' behind it. A type that is private to its
file gets a capital. --check writes nothing. If other names would fall together, it names them, writes nothing and ends with status 1.
"""

import collections
import os
import re
import sys

WORD = re.compile(r'[^\s(){}.;,@"«»]+')
ANTT_QUIET = re.compile(r'"(?:[^"\\\n]|\\.)*"|(?<![^\s(){}.;,@"«»])--[^\n]*|\{-.*?-\}', re.S)
RUST_QUIET = re.compile(r"""//[^\n]*|b?"(?:[^"\\]|\\.)*"|b?'(?:\\x..|\\u\{\w*\}|\\.|[^'\\\n])'""", re.S)
SPAN = re.compile(r"(`+)(?:[^\n]|\n(?!\s*\n))*?\1")
USE = {".antt": re.compile(r"\buse ([^\s;{]+?)\.?\{([^}]*)\}"), ".rt": re.compile(r"\bghost\s+use\s+([^\s;{]+?)\.?\{([^}]*)\}")}
SHAPE = re.compile(r"[a-z][A-Za-z0-9_]*(?:-[A-Za-z0-9_]+)*'*")
DECLARED = re.compile(r"(?m)^ *(?:(?:pub|abbrev|unfoldable|opaque|let) )*([a-z][a-z0-9_]*) :")
TYPE = re.compile(r"(?m)^ *(?:(?:abbrev|unfoldable|opaque) )*([a-z]\w*) :(?:.* →)? Type [0-9ℓ]+ *$")
BLOCK = re.compile(r"(?<![^\s(){};,])(?:where|do|let) +(?=\S)")
IN_ANSWERS = re.compile(r"/proofs/(?:.*/)?(?:Answers|Invariants|Proof)\.antt$")
# Words of the pages that are spelled like a name.
PROSE = {"must-fail", "proof-duplicates"}


def spelled(name):
    return re.sub(r"(?<=[a-z0-9])[A-Z]", lambda m: "_" + m[0].lower(), name).replace("-", "_")


def is_turned(word):
    return bool(SHAPE.fullmatch(word)) and spelled(word) != word


def files(top, *ends):
    for folder, dirs, names in os.walk(top):
        dirs[:] = sorted(d for d in dirs if d not in ("out", "target", ".git"))
        for name in sorted(names):
            if name.endswith(ends):
                yield os.path.join(folder, name)


def between(pattern, text, inside, outside):
    out, at = [], 0
    for m in pattern.finditer(text):
        out += [outside(text[at : m.start()]), inside(m[0])]
        at = m.end()
    return "".join([*out, outside(text[at:])])


def blank(text, quiet):
    return quiet.sub(lambda m: re.sub(r"[^\n]", " ", m[0]), text)


def quiet_of(path):
    return ANTT_QUIET if path.endswith(".antt") else RUST_QUIET


class File:
    def __init__(self, path, crates):
        self.path = path
        with open(path, encoding="utf-8") as f:
            self.text = f.read()
        self.code = blank(self.text, quiet_of(path))
        self.in_answers = bool(IN_ANSWERS.search(path))
        # What stands in an import from a path that is no module of this repository: a library, or the goals of a function.
        self.theirs = set()
        for it, items in USE[os.path.splitext(path)[1]].findall(self.code):
            steps = it.split(".")
            if steps[0] != "Rattle" or steps[1].strip("\u00b7") not in crates or steps[-1] == "Goals":
                self.theirs.update(WORD.findall(items))
        self.goals = set(re.findall(r"\bgoal\.(" + WORD.pattern + ")", self.code))

    def is_own(self, code, m):
        word = m[0]
        if word in self.theirs or word in self.goals:
            return False
        if "-" in word and self.in_answers and code[: m.start()].endswith("."):
            head = re.search(r"[^\s(){};,@\"«»]*$", code[: m.start()])[0].split(".")[0]
            return not head[:1].islower()
        return True

    def words(self):
        return {m[0] for m in WORD.finditer(self.code) if self.is_own(self.code, m)}

    def turned(self, table):
        rust = self.path.endswith(".rt")
        if rust:
            # A name of Rust's own keeps its spelling.
            table = {old: new for old, new in table.items() if is_turned(old)}
        # A type of the file's own begins with a capital.
        table = {**table, **{it: it[0].upper() + it[1:] for it in TYPE.findall(self.code)}}
        code = lambda t: WORD.sub(lambda m: table.get(m[0], m[0]) if self.is_own(t, m) else m[0], t)
        quoted = lambda t: t.lstrip("b")[0] in "\"'"
        new = between(quiet_of(self.path), self.text, lambda t: t if quoted(t) else comment(t, table), code)
        return new if rust else realigned(self.text, new)


def comment(text, table):
    bare = {old: new for old, new in table.items() if "-" not in old}
    return between(SPAN, text, lambda t: prose(t, table), lambda t: prose(t, bare))


def prose(text, table):
    return re.sub(r"(?<![\w-])[a-z][\w]*(?:-\w+)*'*(?![\w-])", lambda m: m[0] if m[0] in PROSE else table.get(m[0], m[0]), text)


def realigned(old, new):
    """The new text, in which the later lines of a block stand under its first item again."""
    was, now = blank(old, ANTT_QUIET).split("\n"), blank(new, ANTT_QUIET).split("\n")
    by = [0] * len(now)
    for row, (a, b) in enumerate(zip(was, now)):
        for x, y in zip(BLOCK.finditer(a), BLOCK.finditer(b)):
            below = row + 1
            while x.end() != y.end() and below < len(was):
                if was[below].strip() and was[below][: x.end()].strip():
                    break
                by[below] += (y.end() - x.end()) * bool(was[below].strip())
                below += 1
    return "\n".join(" " * n + line if n >= 0 else line[-n:] for n, line in zip(by, new.split("\n")))


def page(text, table):
    fenced = re.compile(r"^( *)(`{3,})[^\n]*\n.*?^\1\2 *$", re.S | re.M)
    turn = lambda t: prose(t, table)
    return between(fenced, text, turn, lambda t: between(SPAN, t, turn, lambda u: u))


def main(argv):
    crates = set(os.listdir("crates"))
    texts = [File(p, crates) for p in files("crates", ".antt", ".rt")]
    own = {w for f in texts for w in f.words() if is_turned(w)}
    declared = {w for f in texts if f.path.endswith(".antt") for w in DECLARED.findall(f.code)}
    definitions = {spelled(w) for w in own if "-" not in w}
    # A module goes by the name that a file gives it.
    aliases = {w for f in texts for w in re.findall(r"(?m) as (\S+)$", f.code)}
    table = {w: spelled(w) for w in own}
    for word in own - aliases:
        if "-" in word and (spelled(word) in definitions or spelled(word) in declared):
            table[word] += "_lem"
    for word in declared & definitions:
        table[word] = word + "_lem"
    for f in texts:
        for word in f.words() & own:
            if "-" in word and table[word] in f.theirs:
                table[word] += "_lem"
    olds = collections.defaultdict(set)
    for old, new in table.items():
        if old not in aliases:
            olds[new].add(old)
    bad = [f"{new} would be the name of {', '.join(sorted(it))}" for new, it in olds.items() if len(it) > 1]
    for f in texts:
        bad += [f"{f.path}: {table[w]} is a library's, and {w} would have its name" for w in f.words() & own if table[w] in f.theirs]
    if bad:
        print("\n".join(sorted(bad)))
        return 1
    changed = 0
    pages = [(p, page) for p in files(".", ".md")]
    edits = [(p, prose) for p in files("crates", ".edit")]
    for path, turn in [(f.path, None) for f in texts] + pages + edits:
        if turn is None:
            old = next(f for f in texts if f.path == path)
            old, new = old.text, old.turned(table)
        else:
            with open(path, encoding="utf-8") as it:
                old = it.read()
            new = turn(old, table)
        if new != old:
            changed += 1
            if "--check" not in argv:
                with open(path, "w", encoding="utf-8") as it:
                    it.write(new)
    print(f"{len(table)} names, {changed} files")
    return 0


if __name__ == "__main__":
    sys.exit(main(sys.argv[1:]))
