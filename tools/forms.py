#!/usr/bin/env python3
"""Counts, in crates/*/src, places written in an older form of the language, point by point as docs/DESIGN-PASS.md has them.

    python3 tools/forms.py [POINT..]     from the top of the repository
"""
import collections
import pathlib
import re
import sys

SOURCES = sorted(pathlib.Path("crates").glob("*/src/**/*.rt"))


def functions():
    """Each function: crate, name, parameters, clauses, body."""
    for path in SOURCES:
        text = re.sub(r"//.*", "", path.read_text())
        crate = path.parts[1]
        for found in re.finditer(r"\bfn (\w+)(?:<[^>(]*>)?\(", text):
            at = found.end()
            depth = 1
            while depth:
                depth += {"(": 1, ")": -1}.get(text[at], 0)
                at += 1
            parameters = text[found.end():at - 1]
            # the body is the brace that stands first in its line, or ends the line of the signature
            clauses = at
            while True:
                brace = text.index("{", at)
                start = text.rfind("\n", 0, brace) + 1
                if not re.match(r"\s*(requires|ensures)", text[start:brace]):
                    break
                at = brace
                depth = 0
                while True:
                    depth += {"{": 1, "}": -1}.get(text[at], 0)
                    at += 1
                    if not depth:
                        break
            end = brace
            depth = 0
            while True:
                depth += {"{": 1, "}": -1}.get(text[end], 0)
                end += 1
                if not depth:
                    break
            yield crate, found.group(1), parameters, text[clauses:brace], text[brace:end]


def enums():
    for path in SOURCES:
        text = re.sub(r"//.*", "", path.read_text())
        for found in re.finditer(r"\benum (\w+) \{([^}]*)\}", text):
            yield path.parts[1], found.group(1), [v.strip() for v in re.findall(r"\w+(?:\([^)]*\))?", found.group(2))]


def numbers_of_variants(body):
    """A match whose every arm is a number: a conversion written out."""
    arms = re.findall(r"\w+::\w+(?:\([^)]*\))? => ([^,]*),", body)
    return len(arms) > 1 and all(re.fullmatch(r"\d+", a.strip()) for a in arms)


def names(text):
    return [re.sub(r"\s+", " ", p.strip()) for p in re.split(r",(?![^<]*>)", text) if p.strip()]


def point1():
    """Own enums like Option or Result: two variants of which one is bare, or one that holds a Refusal."""
    for crate, name, variants in enums():
        bare = [v for v in variants if "(" not in v]
        if any("(Refusal)" in v for v in variants) or (len(variants) == 2 and len(bare) == 1):
            yield f"{crate}::{name} {{ {', '.join(variants)} }}"
    # numbers for kinds: a match over number literals, or a constant that is the number of a kind
    for crate, name, _, _, body in functions():
        if re.search(r"\n\s*(\d+|b'.'(\.\.=b'.')?) =>", body):
            yield f"{crate}::{name}: match on numbers"
        elif numbers_of_variants(body):
            yield f"{crate}::{name}: numbers of variants"


def shape(body):
    """A body without its names and numbers."""
    body = re.sub(r"\b(if|else|while|for|in|match|let|mut|return|as|true|false)\b", r"@\1@", body)
    body = re.sub(r"(?<!@)\b(?:\w+::)*[A-Za-z_]\w*\b(?!@)", "n", body)
    body = re.sub(r"\b(0x[0-9A-Fa-f_]+|\d+)\b", "n", body)
    return re.sub(r"\s+", "", body)


def point2():
    """Twins: functions whose bodies are alike but for names and numbers, of forty signs and more."""
    alike = collections.defaultdict(list)
    for crate, name, parameters, _, body in functions():
        alike[(len(names(parameters)), shape(body))].append(f"{crate}::{name}")
    for (_, body), group in sorted(alike.items(), key=lambda g: g[1]):
        if len(group) > 1 and len(body) >= 20:
            yield ", ".join(group)


def point3():
    """Loops that count by hand: a while whose body moves a variable of its condition by a constant."""
    for crate, name, _, _, body in functions():
        for found in re.finditer(r"\bwhile ([^{]*)\{", body):
            end = found.end()
            depth = 1
            while depth:
                depth += {"{": 1, "}": -1}.get(body[end], 0)
                end += 1
            inside = body[found.end():end]
            counted = [v for v in re.findall(r"[a-z_]\w*", found.group(1)) if re.search(rf"\b{v} [+-]= \d+;", inside)]
            if counted:
                yield f"{crate}::{name}: while {found.group(1).strip()}"


def point4():
    """Equality, order, copying, conversion by hand: a body that is one comparison or cast of parameters, the larger or smaller of two, or an
    equality of all elements."""
    for crate, name, parameters, _, body in functions():
        inner = re.sub(r"\s+", " ", body[1:-1].strip())
        if re.fullmatch(r"\w+ as \w+", inner) or re.fullmatch(r"if (\w+) < (\w+) \{ \2 \} else \{ \1 \}", inner) or re.fullmatch(r"if \w+ \{ 1 \} else \{ 0 \}", inner):
            yield f"{crate}::{name}: {inner}"
        elif re.search(r"if (\w+)\[i\] != (\w+)\[i\]", inner) or re.search(r"\bout\[[^\]]*i\] = \w+\[i\];", inner):
            yield f"{crate}::{name}: element by element"
        elif re.search(r"if (\w+) < (\w+) \{ return \2; \} \1", inner) or re.search(r"if (\w+)(\.len\(\))? < (\w+)(\.len\(\))? \{ \1\2 \} else \{ \3\4 \}", inner):
            yield f"{crate}::{name}: larger or smaller of two"
        elif re.search(r"if (\S+) == (\S+) \{ return \S+ < \S+; \} \1 < \2", inner):
            yield f"{crate}::{name}: order by two fields"
        elif numbers_of_variants(body):
            yield f"{crate}::{name}: a conversion to numbers"
        elif re.search(r"\d+ => \w+::\w+,", body):
            yield f"{crate}::{name}: a conversion from numbers"
        elif re.fullmatch(r"let number = number_of\(word\); if number < \d+ \{ number as \w+ \} else \{ \d+ \}", inner):
            yield f"{crate}::{name}: a narrowing by hand"


def point5():
    """Facts that stand in the requires of three functions and more, and pairs of parameters that stand in five and more."""
    facts = collections.defaultdict(list)
    pairs = collections.defaultdict(list)
    for crate, name, parameters, clauses, _ in functions():
        seen = set()
        for clause in re.findall(r"requires(?: \w+)? \{(.*?)\}\s*\n", clauses + "\n", re.S):
            for fact in clause.split("×"):
                fact = fact.strip()
                if re.match(r"[A-Z]\w* \S", fact):
                    seen.add(fact.split()[0])
                elif re.match(r"\(?gates_read", fact):
                    seen.add("gates_read")
        for fact in seen:
            facts[fact].append(f"{crate}::{name}")
        own = names(parameters)
        for a in own:
            for b in own:
                if a < b:
                    pairs[a + ", " + b].append(f"{crate}::{name}")
    for fact, where in sorted(facts.items(), key=lambda f: -len(f[1])):
        if len(where) >= 3:
            yield f"fact {fact}: {len(where)} contracts"
    for pair, where in sorted(pairs.items(), key=lambda f: -len(f[1])):
        if len(where) >= 5:
            yield f"parameters {pair}: {len(where)} functions"


def point6():
    """Two and more lists of numbers of one length, or a list with a count beside it."""
    for crate, name, parameters, _, _ in functions():
        own = names(parameters)
        lists = [p for p in own if re.search(r"&mut \[u16|&\[u16", p)]
        if len(lists) >= 2:
            yield f"{crate}::{name}: lists {', '.join(p.split(':')[0] for p in lists)}"
        counts = [p for p in own if re.match(r"(count|n|m|left): (usize|u16)", p)]
        if counts and any("[" in p for p in own):
            yield f"{crate}::{name}: {counts[0].split(':')[0]} beside a list"


def point7():
    """Switches on which step to run: a branch on a mode whose arms call functions of one signature."""
    for crate, name, _, _, body in functions():
        for arms in re.finditer(r"match (\S+) \{", body):
            end = arms.end()
            depth = 1
            while depth:
                depth += {"{": 1, "}": -1}.get(body[end], 0)
                end += 1
            calls = re.findall(r"=> (?:\{\s*)?((?:\w+::)*[a-z]\w*)\(", body[arms.end():end])
            if len(calls) > 2:
                yield f"{crate}::{name}: match {arms.group(1)} over {len(calls)} calls"
        if re.search(r"if step == 0 \{", body):
            yield f"{crate}::{name}: if step == 0"


def point8():
    """Proof files, their lines, and imports of the logic's own modules where the Prelude or Common may do."""
    for kind in ("Answers.antt", "Invariants.antt"):
        files = list(pathlib.Path("crates").glob(f"*/proofs/**/{kind}"))
        yield f"{kind}: {len(files)} files, {sum(len(f.read_text().splitlines()) for f in files)} lines"
    laws = [f for f in pathlib.Path("crates").glob("*/proofs/*.antt")]
    yield f"laws: {len(laws)} files, {sum(len(f.read_text().splitlines()) for f in laws)} lines"
    every = list(pathlib.Path("crates").glob("*/proofs/*/**/*.antt"))
    old = sum(len(re.findall(r"^use (?:mathlib|native|lib|Prim|borrow)\.", f.read_text(), re.M)) for f in every)
    yield f"imports of mathlib, native, lib, Prim and borrow in functions' proofs: {old}"


def main():
    points = sys.argv[1:] or list("12345678")
    for point in points:
        found = list(globals()["point" + point]())
        print(f"point {point}: {len(found)}")
        for place in found:
            print("   ", place)


main()
