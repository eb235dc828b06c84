#!/usr/bin/env python3
"""Brings the repository's own names to today's spelling: words in snake case, in place of words joined by hyphens and of small camel case.

usage: python3 tools/respell.py        at the top of the repository, once, after the library's own script

It turns the definitions, lemmas, fields and variables of specs/ and of proofs/, wherever they are cited: in specs/ and proofs/, in clauses, in must-fail
edits and in code spans of pages. Names of goals and of places that the prover makes keep their hyphens, and so do the library's names.
Where two names fall together, the definition keeps the word, a lemma gets `_law` behind it, and a field or variable `_here`, but a name of the
code keeps its spelling.
It prints the names that fell together. It proves nothing.
"""
import collections
import glob
import re

WORD = re.compile(r"[^\s(){}.;,@\"«»\[\]|\x60]+")
NAME = re.compile(r"^[A-Za-z_][\w'-]*[₀-₉']*$")
CAMEL = re.compile(r"^[a-z]\w*[A-Z]")
HEAD = re.compile(r"(?:(?:pub|abbrev|unfoldable|opaque|irreducible|data|record|newtype)\s+)*([^\s:(){}=.]+)\s*:(?!:)")
ANSWER = re.compile(r"^(?:abbrev )?(?:pub )?([^\s:(){}=.]+) : tie\.", re.M)
MADE = ("Need-", "After-", "At-", "In-", "invariant-", "decreases-", "Lts-")


def read(path):
    with open(path, encoding="utf-8") as f:
        return f.read()


def code(text):
    return re.sub(r"(?<![^\s(){}.;,@\"])--[^\n]*", "", text)


def turn(word):
    if "-" not in word and not CAMEL.match(word):
        return word
    if word[0].isupper():
        return "".join(p[:1].upper() + p[1:] for p in word.split("-"))
    word = word.replace("-", "_")
    word = re.sub(r"(?<=[^_])([A-Z])", lambda m: "_" + m.group(1).lower(), word)
    return word.lower()


def words(text):
    return {w for w in WORD.findall(code(text)) if NAME.match(w)}


def table(stated, walks):
    """The rows old -> new, and what fell together."""
    texts = {f: read(f) for f in stated + walks}
    library, top, toks = set(), set(), {f: words(t) for f, t in texts.items()}
    for f, t in texts.items():
        for m in re.finditer(r"^use (\S+?)\.\{([^}]*)\}", t, re.M):
            if not m.group(1).startswith("Rattle.") or m.group(1).startswith(("Rattle.std", "Rattle.core")):
                library |= {n.strip().split(" as ")[0] for n in m.group(2).split(",")}
        for line in t.splitlines():
            m = HEAD.match(line)
            if m:
                top.add(m.group(1))
    own = set()
    for f in stated:
        own |= toks[f]
    for f in walks:
        answers = set(ANSWER.findall(texts[f]))
        for m in re.finditer(r"^(?:abbrev )?(?:pub )?([^\s:(){}=.]+) :(?! tie\.)", texts[f], re.M):
            if m.group(1) not in answers and not m.group(1).endswith("-spec"):
                own.add(m.group(1))
    rows = {w: turn(w) for w in own if turn(w) != w and w not in library and not w.startswith(MADE)}
    together = collections.defaultdict(set)
    for f, ws in toks.items():
        by = collections.defaultdict(set)
        for w in ws:
            by[rows.get(w, w)].add(w)
        for v, group in by.items():
            if len(group) > 1:
                together[v] |= group
    by = collections.defaultdict(set)
    for w in top & set(rows):
        by[rows[w]].add(w)
    for v, group in by.items():
        if len(group) > 1:
            together[v] |= group
    source = set()
    for f in glob.glob("crates/*/src/**/*.rt", recursive=True):
        source |= set(re.findall(r"[A-Za-z_]\w*", read(f)))
    said = []
    for v, group in sorted(together.items()):
        first = [w for w in group if CAMEL.match(w)] or ([v] if v in group else [])
        for w in sorted(group):
            if w in first or (w == v and w not in top) or (w not in top and v in source):
                continue
            rows[w] = v + ("_law" if w in top else "_here")
            said.append(f"{w} -> {rows[w]}")
    return rows, said


def replace(text, rows, skip=()):
    def one(m):
        w = m.group(0)
        return w if w in skip else rows.get(w, w)

    return WORD.sub(one, text)


def main():
    stated = sorted(glob.glob("crates/*/specs/**/*.antt", recursive=True) + glob.glob("crates/*/proofs/*.antt"))
    walks = sorted(set(glob.glob("crates/*/proofs/**/*.antt", recursive=True)) - set(stated))
    rows, said = table(stated, walks)
    for f in stated + walks:
        t = read(f)
        skip = set(ANSWER.findall(t))
        new = replace(t, rows, skip)
        new = re.sub(r"(?<![\w.'-])([a-z][\w-]*)-spec(?= (?::|=))", lambda m: m.group(1).replace("-", "_") + "_spec", new) if f in walks else new
        if new != t:
            open(f, "w", encoding="utf-8").write(new)
    only = {k: v for k, v in rows.items() if "-" in k or CAMEL.match(k)}
    for f in sorted(glob.glob("crates/*/src/**/*.rt", recursive=True) + glob.glob("crates/*/must-fail/*.edit")):
        t = read(f)
        new = replace(t, only)
        if new != t:
            open(f, "w", encoding="utf-8").write(new)
    for f in sorted(glob.glob("*.md") + glob.glob("docs/**/*.md", recursive=True) + glob.glob("bench/*.md")):
        t = read(f)
        new = re.sub(r"\x60[^\x60\n]+\x60", lambda m: replace(m.group(0), only), t)
        if new != t:
            open(f, "w", encoding="utf-8").write(new)
    print(f"{len(rows)} names turned; fell together:")
    print("\n".join(said))


if __name__ == "__main__":
    main()
