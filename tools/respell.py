#!/usr/bin/env python3
"""Spells this repository's own definitions and lemmas in snake case, after port.py, which does so for some of them.

usage: tools/respell.py [--check]      at the top of the repository

A word of specs/ and proofs/ that is in lower camel case or has dashes turns, as `costOf` to `cost_of` and `run-accepts` to `run_accepts`, and so
do a definition's name in a clause of src/, in a must-fail edit, and in a code span of a page. What stays: names that a file imports from a library
of the kit, the labels that Rattle makes of a function's code (in proofs/F/, where only what is imported from this repository and the fields of its
records turn), Rust's own names, strings, inputs and outputs. Where a lemma would get the name of a definition, it ends in `_lem`.
--check writes nothing and lists the names that would fall together. At the end each crate is laid out by rt fmt.
"""

import collections
import os
import re
import subprocess
import sys

WORD = r'[^\s(){}.;,@"«»]+'
NAME = re.compile(r"^[a-z][^\W_]*[\w'₀-₉≢≡≤∷-]*$")
USE = re.compile(r"\buse ([^\s;{]+?)\.?\{([^}]*)\}|\buse ([^\s;{]+)(?: as (\S+))?", re.S)
DECLARED = re.compile(r"(?m)^ *(?:(?:pub|abbrev|unfoldable|pattern|axiom) )*(" + WORD + r")(?: \{[^{}\n]*\})* :(?= )")
FIELD = re.compile(r"(?<![^\s(){};,])(" + WORD + r") :(?= )")


def crates():
    return sorted(c for c in os.listdir("crates") if os.path.isdir(os.path.join("crates", c)))


def files(*endings):
    for folder, dirs, names in os.walk("crates"):
        dirs[:] = sorted(d for d in dirs if d not in ("out", ".git"))
        for name in sorted(names):
            if name.endswith(endings):
                yield os.path.join(folder, name)


def is_walk(path):
    """A file of one function's proof: crates/C/proofs/F/..."""
    parts = path.split(os.sep)
    return parts[2] == "proofs" and len(parts) > 4


def turns(word):
    return bool(re.match(r"[a-z]", word)) and ("-" in word.strip("-") or re.search(r"[a-z0-9][A-Z]", word) is not None) and NAME.match(word) is not None


def plain(word):
    return re.sub(r"(?<=[a-z0-9])[A-Z]", lambda m: "_" + m[0].lower(), word).replace("-", "_")


OWN = None


def imports(text):
    """Names that the file imports, from this repository's crates and from the kit's libraries."""
    own, kit = set(), set()
    for m in USE.finditer(text):
        module = m[1] or m[3]
        steps = module.split(".")
        mine = len(steps) > 1 and steps[0] == "Rattle" and steps[1] in OWN
        into = own if mine else kit
        for item in (m[2] or "").split(","):
            for part in item.split(" as "):
                if part.strip():
                    into.add(part.strip())
        if m[1] is None and not mine and len(steps) > 1:
            into.add(steps[-1])
        if m[4]:
            into.add(m[4])
    return own, kit


COMMENT = re.compile(r'"(?:[^"\\\n]|\\.)*"|--[^\n]*|//[^\n]*')


def code(text, mark):
    return re.sub(r'"(?:[^"\\\n]|\\.)*"|(?<![^\s(){}.;,@"«»])' + mark + r"[^\n]*", "", text)


def main(argv):
    global OWN
    OWN = set(crates())
    check = "--check" in argv
    read = {}
    for p in files(".antt", ".rt", ".edit"):
        with open(p, encoding="utf-8") as f:
            read[p] = f.read()
    declared, definitions, lemmas, fields = set(), set(), set(), set()
    for p, t in read.items():
        if p.endswith(".antt") and not is_walk(p):
            c = code(t, "--")
            for m in DECLARED.finditer(c):
                declared.add(m[1])
                (definitions if "/specs/" in p or "abbrev" in m[0] or "unfoldable" in m[0] else lemmas).add(m[1])
            for m in FIELD.finditer(c):
                fields.add(m[1])
    mine = {w for w in declared | fields if turns(w)}
    for p, t in read.items():
        if p.endswith(".antt") and not is_walk(p):
            kit = imports(t)[1]
            mine |= {w for w in re.findall(WORD, code(t, "--")) if turns(w) and w not in kit}
    words_of = {p: set(re.findall(WORD, code(t, "//" if p.endswith(".rt") else "--"))) for p, t in read.items() if p.endswith(".antt")}
    taken = collections.defaultdict(set)
    for w in mine:
        taken[plain(w)].add(w)
    new = {}
    for to, froms in taken.items():
        for w in froms:
            new[w] = to
        # Names that one file has both of: the definition gets the plain name, and the lemma ends in _lem. port.py may have turned the lemma already.
        group = froms | ({to} if to in declared else set())
        met = [p for p, have in words_of.items() if len(group & have) > 1]
        if met:
            camel = sorted(w for w in froms if "-" not in w)
            keep = camel[0] if camel else to if to in declared else sorted(froms)[0]
            for w in sorted(group - {keep}):
                new[w] = to + "_lem"
            print("together:", {w: new.get(w, w) for w in sorted(group)}, met[:2])
    changed = 0
    for p, t in read.items():
        own, kit = imports(t)
        words = set(re.findall(WORD, code(t, "//" if p.endswith(".rt") else "--")))
        if p.endswith(".antt") and is_walk(p):
            local = {w for w in own if w in new}
            dotted = {w for w in fields if w in new}
        elif p.endswith(".antt"):
            local = {w for w in new if w not in kit}
            dotted = local & fields
        else:
            local = {w for w in new if turns(w) and "-" not in w and w in declared | fields and w not in kit}
            if p.endswith(".edit") and re.search(r"(?m)^file: .*\.antt", t):
                local = {w for w in new if turns(w) and w in declared | fields}
            dotted = local

        def one(m):
            w = m[0]
            before = t[m.start() - 1 : m.start()]
            if before == ".":
                return new[w] if w in dotted else w
            return new[w] if w in local else w

        for w in words:
            if w in local and new[w] in words and new[w] not in (new[x] for x in words & local if x != w):
                print("meets:", p, w, new[w])
        out, at = [], 0
        mark = r"//" if p.endswith(".rt") else r"--"
        pattern = re.compile(r'"(?:[^"\\\n]|\\.)*"|(?<![^\s(){}.;,@"«»])' + mark + r"[^\n]*|" + WORD)
        done = []
        for m in pattern.finditer(t):
            done.append(t[at : m.start()])
            at = m.end()
            s = m[0]
            if s.startswith('"'):
                done.append(s)
            elif s.startswith(mark):
                # in a comment: code spans, and bare words in camel case
                def span(k):
                    return re.sub(r"[^\s(){}.;,@\"«»\x60]+", lambda x: new.get(x[0], x[0]) if turns(x[0]) and x[0] in mine else x[0], k[0])

                s = re.sub(r"\x60[^\x60\n]*\x60", span, s)
                s = re.sub(r"(?<![\w\x60-])[a-z]+(?:[A-Z][a-z0-9]*)+(?![\w-])", lambda x: new.get(x[0], x[0]), s)
                done.append(s)
            else:
                done.append(one(m))
        done.append(t[at:])
        turned = "".join(done)
        if turned != t:
            changed += 1
            if not check:
                with open(p, "w", encoding="utf-8") as f:
                    f.write(turned)
    pages = ["README.md"] + sorted(os.path.join("docs", d) for d in os.listdir("docs") if d.endswith(".md") and not d.startswith("PORT"))
    for p in pages:
        with open(p, encoding="utf-8") as f:
            t = f.read()
        turned = re.sub(r"\x60[^\x60\n]+\x60", lambda k: re.sub(r"[^\s(){}.;,@\"«»\x60/]+", lambda x: new.get(x[0], x[0]) if turns(x[0]) and x[0] in declared | fields else x[0], k[0]), t)
        if turned != t:
            changed += 1
            if not check:
                with open(p, "w", encoding="utf-8") as f:
                    f.write(turned)
    if not check:
        for c in crates():
            if os.path.isdir(os.path.join("crates", c, "src")):
                subprocess.run(["rt", "fmt"], cwd=os.path.join("crates", c), stdout=subprocess.DEVNULL)
    print("respell:", len(new), "names,", changed, "files")
    return 0


if __name__ == "__main__":
    raise SystemExit(main(sys.argv[1:]))
