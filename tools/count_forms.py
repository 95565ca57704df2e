#!/usr/bin/env python3
"""Lists, for each point of docs/DESIGN-PASS.md, the places in crates/*/src that may want another form, a line each, and counts them.

    tools/count_forms.py [POINT ..]      the points 1 to 8; with none, the counts alone of all

It goes by text, so a line is a place to be looked at, and not yet one that is to change. It does not see an index that a `for` counts by
hand; the words that it looks for in variants are those that the code had.
"""
import collections
import glob
import itertools
import re
import sys

KEPT = ("if", "else", "match", "let", "mut", "while", "for", "return")
FILES = sorted(glob.glob("crates/*/src/**/*.rt", recursive=True))


def without_comments(text):
    return re.sub(r"//[^\n]*", "", text)


TEXTS = {name: without_comments(open(name).read()) for name in FILES}


def block(text, at):
    """The text from the brace at `at` to the one that closes it."""
    depth = 0
    for end in range(at, len(text)):
        depth += {"{": 1, "}": -1}.get(text[end], 0)
        if depth == 0:
            return text[at : end + 1]
    return text[at:]


def items(word):
    """The structs or enums: file, name, what stands in the braces."""
    for name, text in TEXTS.items():
        for m in re.finditer(r"\b%s (\w+)[^;{(]*\{" % word, text):
            yield name, m[1], block(text, m.end() - 1)[1:-1]


def functions():
    """The functions: file, name, parameters and result, clauses, body."""
    for name, text in TEXTS.items():
        for m in re.finditer(r"\bfn (\w+)[^(]*\(", text):
            depth, end = 1, m.end()
            while depth:
                depth += {"(": 1, ")": -1}.get(text[end], 0)
                end += 1
            parameters, rest = text[m.end() : end - 1], text[end:]
            result = re.match(r"\s*(->\s*[^{]*?)?(?=\s*\b(?:requires|ensures)\b|\s*\{)", rest)
            at, clauses = end + (result.end() if result else 0), []
            while c := re.match(r"\s*(requires|ensures)\s*(\w+)?\s*(?=\{)", text[at:]):
                inside = block(text, at + c.end())
                clauses.append((c[1], " ".join(inside[1:-1].split())))
                at += c.end() + len(inside)
            start = text.find("{", at)
            if start >= 0 and not text[at:start].strip():
                yield name, m[1], parameters, (result[1] or "") if result else "", clauses, block(text, start)


def point_1():
    """Own Option and Result, a flag with a value, a number for a refusal."""
    for name, enum, inside in items("enum"):
        variants = [v.strip() for v in re.split(r",(?![^(]*\))", inside) if v.strip()]
        unit = [v for v in variants if "(" not in v]
        if (len(variants) == 2 and len(unit) == 1) or any(re.search(r"Refused|Bad\b|Unreadable|Missing|Outside|Unlisted", v) for v in variants):
            yield f"{name}: enum {enum} {{{', '.join(v.split('(')[0] for v in variants)}}}"
    for name, struct, inside in items("struct"):
        flags = re.findall(r"(\w+):\s*bool\b", inside)
        if len(flags) == 1:
            yield f"{name}: struct {struct}, flag {flags[0]}"
    for name, fn, parameters, result, clauses, body in functions():
        if re.search(r"->\s*(u8|u16|u32|u64|usize|bool)\b", result) and (
            re.search(r"return (\d+|false);", body) or re.search(r"Err\(\w+\) => |unwrap_or\(0\)", body)
        ):
            yield f"{name}: fn {fn} {result.strip()}"
        if re.search(r"\w+: &mut (u8|u16|u32|bool)\b", parameters):
            yield f"{name}: fn {fn}, a number by &mut"


def shape_of(token):
    """The token, or one letter for a name and one for a constant or a type."""
    if re.match(r"[a-z]\w*$", token) and token not in KEPT:
        return "x"
    return "N" if re.match(r"[\dA-Z]", token) else token


def point_2():
    """Twins: functions of one shape."""
    groups = collections.defaultdict(list)
    for name, fn, parameters, result, clauses, body in functions():
        tokens = re.findall(r"\w+|[^\w\s]", body)
        if len(tokens) > 8:
            groups[" ".join(map(shape_of, tokens))].append(f"{name.split('/')[1]}::{fn}")
    for shape, found in groups.items():
        if len(found) > 1:
            yield ", ".join(found)


def point_3():
    """Loops."""
    for name, text in TEXTS.items():
        for n, line in enumerate(text.split("\n"), 1):
            if re.search(r"\b(while|loop)\b.*\{", line):
                yield f"{name}:{n}: {line.strip()}"


def point_4():
    """Tables between an enum and a number; names of comparisons and conversions."""
    literal = r"(?:0x[0-9A-Fa-f]+|\d+|b?'[^']+'|\w+\(\d+\))"
    for name, fn, parameters, result, clauses, body in functions():
        if m := re.match(r"\{\s*match (?:self|\w+) \{(.*)\}\s*\}$", body, re.S):
            arms = re.findall(r"([^,]+?)\s*=>\s*([^,]+?),", m[1] + ",")
            path = r"[A-Z]\w*::[^,]*"
            to_number = all(re.match(path, a.strip()) and re.fullmatch(literal, b.strip()) for a, b in arms)
            to_enum = all(re.fullmatch(literal + "|_", a.strip()) and re.match(path, b.strip()) for a, b in arms)
            if arms and (to_number or to_enum):
                yield f"{name}: fn {fn}, {len(arms)} arms"
        if re.fullmatch(r"least|min|max|same\w*|flag|word|wide|number|\w*_number", fn):
            yield f"{name}: fn {fn}"


def point_5():
    """Facts that repeat, parameters that travel together."""
    facts, taken = collections.defaultdict(set), collections.defaultdict(dict)
    for name, fn, parameters, result, clauses, body in functions():
        crate = name.split("/")[1]
        for kind, clause in clauses:
            if kind == "requires":
                facts[clause].add(f"{crate}::{fn}")
        taken[crate][f"{name}::{fn}"] = {" ".join(p.split()) for p in re.split(r",(?![^<\[]*[>\]])", parameters) if ":" in p}
    for clause, found in facts.items():
        if len(found) > 2:
            yield f"{len(found)} functions require {clause}"
    for crate, sets in taken.items():
        groups = set()
        for ps in sets.values():
            for pair in itertools.combinations(sorted(ps), 2):
                found = [it for it in sets.values() if it.issuperset(pair)]
                if len(found) > 2:
                    groups.add((len(found), tuple(sorted(set.intersection(*found)))))
        for count, group in sorted(groups, reverse=True):
            yield f"{crate}: {count} functions take {', '.join(group)}"


def point_6():
    """A buffer with its count."""
    for name, struct, inside in items("struct"):
        if re.search(r"\[[^\]]*;", inside) and re.search(r"\b(counts?|len|length)\b\s*:", inside):
            yield f"{name}: struct {struct}"


def point_7():
    """A choice among functions."""
    for name, fn, parameters, result, clauses, body in functions():
        arms = re.findall(r"=>\s*(?:\w+\()*([a-z]\w+)\(", body)
        if len(arms) > 3 and len(set(arms)) > 3 and body.count("match ") == 1:
            yield f"{name}: fn {fn}, {len(arms)} arms"


def point_8():
    """Proofs, by crate."""
    for crate in sorted(glob.glob("crates/*")):
        answers = lemmas = lines = 0
        for proof in glob.glob(crate + "/proofs/**/*.antt", recursive=True):
            text = open(proof).read()
            heads = len(re.findall(r"^(?:abbrev |unfoldable )?(?:pub )?[\w'-]+ :", text, re.M))
            lines += text.count("\n")
            if proof.endswith("Answers.antt"):
                answers += heads
            else:
                lemmas += heads
        if lines:
            yield f"{crate}: {answers} answers, {lemmas} lemmas and invariants, {lines} lines"


POINTS = {str(n): globals()[f"point_{n}"] for n in range(1, 9)}


def main(chosen):
    for number, point in POINTS.items():
        found = list(point())
        if number in chosen:
            print("\n".join(f"{number}  {line}" for line in found))
        print(f"point {number}: {len(found)}")


if __name__ == "__main__":
    main(sys.argv[1:])
