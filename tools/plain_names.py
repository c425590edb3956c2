#!/usr/bin/env python3
"""Spells the repository's own definitions and lemmas in snake case, as today's Rattle has them.

usage: tools/plain_names.py [--check] [FOLDER]

    isBlank, first-required, ad-holds  ->  is_blank, first_required, ad_holds

It was run once, right after port.py, at the top of the repository (FOLDER, by default the current one). It turns words of specs/ and
proofs/, of the clauses in src/, of must-fail edits and of the pages' code spans. A word of the library stays, and so does a name that
Rattle makes. Where two words of one file would become one, the second is given `_lem`, as the library does with a lemma that would
have its function's name. --check writes nothing and lists what would change.
"""

import collections
import os
import re
import sys

WORD = r"[^\s(){}.;,@\"«»]+"
ANTT = re.compile(r"(?<![^\s(){}.;,@\"«»])--[^\n]*|\"(?:[^\"\\\n]|\\.)*\"|«[^»\n]*»|" + WORD)
PART = r"[A-Za-z0-9_'′₀-₉⁺⋆ℕℤ]"
DASHED = re.compile(rf"^[A-Za-z]{PART}*(?:-{PART}+)+$")
CAMEL = re.compile(r"^[a-z]+[a-z0-9_]*[A-Z][A-Za-z0-9_'′₀-₉]*$")
USE = re.compile(r"^\s*(?:pub )?use ([^\s;{]+?)(?:\.?\{([^}]*)\})?(?: as (\S+))?\s*;?$", re.M)
GHOST = re.compile(r"ghost use ([^\s;{]+?)(?:\.?\{([^}]*)\})?(?: as (\S+))?\s*;")
# Names that port.py had turned already, and that a definition in camel case beside them is spelled like now: these yield.
YIELD = {"same_bytes", "last_digits", "on_shape", "stands_at"}
PATH = re.compile(r"\buse (?:[^\s;{]+\.)+")
SPAN = re.compile(r"`([^`\n]+)`")
HEADS = {"abbrev", "unfoldable", "pub", "data", "record", "mutual"}
# Names that Rattle makes, which stand in the proofs of single functions.
MADE = re.compile(
    r"^(?:returns|loop|invariant|decreases|Inv|InvT|Need|Then|Else|After|At|In|if|overflow|bounds|Lts)\d*(?:-|$)|-requires(?:-|$)|^[a-z_0-9-]+-(?:spec|init|preserved|smaller)$"
)


def snake(word):
    it = re.sub(r"(?<=[a-z0-9_'])(?=[A-Z])", "_", word) if CAMEL.match(word) or word[:1].islower() else word
    it = it.replace("-", "_")
    return it.lower() if word[:1].islower() else it


def texts(top, endings):
    for folder, dirs, files in os.walk(top):
        dirs[:] = sorted(d for d in dirs if d not in ("out", ".git", "target"))
        for f in sorted(files):
            if f.endswith(endings):
                yield os.path.join(folder, f)


def read(path):
    with open(path, encoding="utf-8") as f:
        return f.read()


def of_function(path):
    """Whether a file is of the proof of one function: proofs/F/Proof.antt and the like."""
    return re.search(r"/proofs/.+/(Proof|Answers|Invariants)\.antt$", path) is not None


def words(text):
    """Each word of antt's code, with whether it stands right behind a dot."""
    for m in ANTT.finditer(text):
        it = m.group()
        if it[0] in "\"«" or it.startswith("--"):
            continue
        yield it, m.start() > 0 and text[m.start() - 1] == "."


def library(crates, files):
    """The words that a file brings in from the kit's libraries."""
    kit = set()
    for text in files.values():
        for m in list(USE.finditer(text)) + list(GHOST.finditer(text)):
            path = m.group(1).split(".")
            if path[0] == "Rattle" and len(path) > 1 and path[1] in crates:
                continue
            for item in (m.group(2) or "").split(","):
                kit.add(item.split(" as ")[0].strip())
    return kit


def declared(files):
    """The words that stand where a file declares something: a definition, a field, a parameter, a `let` or a `λ`."""
    own = set()
    for path, text in files.items():
        if not path.endswith(".antt") or of_function(path):
            continue
        for line in text.splitlines():
            head = re.match(rf"^\s*((?:(?:{'|'.join(HEADS)})\s+)*)({WORD})(?=\s)(.*)$", line)
            if head and " : " in head.group(3) + " " and not head.group(2).startswith("--") and head.group(2) not in HEADS:
                own.add(head.group(2))
            for m in re.finditer(rf"[({{]((?:{WORD}\s+)+):\s", line):
                own.update(m.group(1).split())
            for m in re.finditer(rf"\blet\s+({WORD})\s+[:=]", line):
                own.add(m.group(1))
            for m in re.finditer(r"λ\s+([^.()]+)\.", line):
                own.update(m.group(1).split())
    return own


def table(crates, files):
    kit = library(crates, files)
    own = declared(files)
    new = {it: it + "_lem" for it in YIELD}
    for path, text in files.items():
        if not path.endswith(".antt") or of_function(path):
            continue
        for it, behind in words(text):
            if it in kit or it in new or (behind and it not in own):
                continue
            if DASHED.match(it) or CAMEL.match(it):
                if not MADE.search(it) or it in own:
                    new[it] = snake(it)
    # A word that is never declared here and is cited by its path alone is the kit's.
    for it in [w for w in new if w not in own and w in kit]:
        del new[it]
    # Two words of one file that would become one.
    for _ in range(8):
        clash = set()
        for path, text in files.items():
            if not path.endswith(".antt") or of_function(path):
                continue
            here = collections.defaultdict(set)
            for it, behind in words(PATH.sub("use ", text)):
                if not behind:
                    here[new.get(it, it)].add(it)
            for to, froms in here.items():
                if len(froms) > 1:
                    # a definition in camel case keeps the plain name, and a name with a dash yields
                    turned = sorted((w for w in froms if w in new), key=lambda w: ("-" not in w, w))
                    clash.add(turned[0])
        if not clash:
            break
        for it in clash:
            new[it] += "_lem"
    # Two words of different files: a proof may yet bring in both.
    for to, froms in by_spelling(new).items():
        if len(froms) > 1:
            for it in froms:
                if "-" in it:
                    new[it] += "_lem"
    return new


def by_spelling(new):
    froms = collections.defaultdict(set)
    for a, b in new.items():
        froms[b].add(a)
    return froms


def turn_antt(text, new):
    def one(m):
        it = m.group()
        if it.startswith("--"):
            return SPAN.sub(lambda s: "`" + turn_plain(s.group(1), new) + "`", it)
        if it[0] in "\"«" or it in YIELD and (m.start() and text[m.start() - 1] == "." or text[m.end() : m.end() + 1] == "."):
            return it
        return new.get(it, it)

    return ANTT.sub(one, text)


def turn_plain(text, new):
    """A page's or a comment's words: those of the source, which are spelled with `_` already, stay."""
    return re.sub(rf"(?<![\w'-])[A-Za-z]{PART}*(?:-{PART}+)*(?![\w'-])", lambda m: m.group() if m.group() in YIELD else new.get(m.group(), m.group()), text)


def turn_rt(text, new):
    """The clauses and the ghost lines: what stands in braces behind requires, ensures and ghost, and `ghost use` items."""
    out, at = [], 0
    for m in re.finditer(r"ghost use [^;]*;|\b(?:requires|ensures)\*?(?: \w+)? \{", text):
        if m.start() < at:
            continue
        out.append(text[at : m.start()])
        end = m.end()
        if m.group()[-1] == "{":
            depth = 1
            while depth:
                depth += {"{": 1, "}": -1}.get(text[end], 0)
                end += 1
        out.append(turn_antt(text[m.start() : end], {a: b for a, b in new.items() if a not in YIELD}))
        at = end
    out.append(text[at:])
    return "".join(out)


def turn_edit(text, new):
    """An edit of a file of specs/ or proofs/ is antt; one of src/ has clauses at most."""
    antt = re.search(r"(?m)^file: .*\.antt$", text) is not None
    lines = []
    for line in text.splitlines(keepends=True):
        m = re.match(r"(old: |new: )(.*)", line, re.S)
        if m and (antt or re.search(r"\b(?:requires|ensures)\b|ghost use", m.group(2))):
            line = m.group(1) + turn_antt(m.group(2), new)
        lines.append(line)
    return "".join(lines)


def main(argv):
    check = "--check" in argv
    rest = [a for a in argv if a != "--check"]
    top = rest[0] if rest else "."
    crates = set(os.listdir(os.path.join(top, "crates")))
    files = {p: read(p) for p in texts(os.path.join(top, "crates"), (".antt", ".rt"))}
    new = table(crates, files)
    if check:
        for a, b in sorted(new.items()):
            print(a, b)
        return 0
    for path, text in files.items():
        to = turn_rt(text, new) if path.endswith(".rt") else turn_antt(text, new)
        if to != text:
            with open(path, "w", encoding="utf-8") as f:
                f.write(to)
    others = list(texts(os.path.join(top, "crates"), (".edit",))) + list(texts(os.path.join(top, "docs"), (".md",)))
    others += [os.path.join(top, "README.md")]
    for path in others:
        text = read(path)
        if path.endswith(".edit"):
            to = turn_edit(text, new)
        else:
            to = SPAN.sub(lambda s: "`" + turn_plain(s.group(1), new) + "`", text)
        if to != text:
            with open(path, "w", encoding="utf-8") as f:
                f.write(to)
    return 0


if __name__ == "__main__":
    raise SystemExit(main(sys.argv[1:]))
