#!/usr/bin/env python3
"""Counts, in the src/ of each crate, the places where an older form of code may stand (docs/DESIGN-PASS.md).

    tools/forms.py [--list] [POINT..]

It reads text and no types, so a count is what a pattern finds. Points are 1 to 8.
"""
import collections
import difflib
import itertools
import pathlib
import re
import sys

ROOT = pathlib.Path(__file__).resolve().parent.parent
TYPES = {"u8", "u16", "u32", "u64", "usize", "bool"}


def sources():
    for path in sorted(ROOT.glob("crates/*/src/**/*.rt")):
        text = re.sub(r"//[^\n]*", lambda m: " " * len(m.group()), path.read_text())
        yield path.relative_to(ROOT / "crates"), text


def comments():
    for path in sorted(ROOT.glob("crates/*/src/**/*.rt")):
        yield path.relative_to(ROOT / "crates"), path.read_text()


def line_of(text, at):
    return text.count("\n", 0, at) + 1


def closed(text, at, pair="{}"):
    """The place behind the bracket that closes the one at `at`."""
    depth = 0
    for i in range(at, len(text)):
        depth += (text[i] == pair[0]) - (text[i] == pair[1])
        if depth == 0:
            return i + 1
    return len(text)


def functions():
    """Path, line, name, parameters, clauses and body of each function."""
    for path, text in sources():
        for m in re.finditer(r"\bfn (\w+)(?:<[^(]*?>)?\(", text):
            behind = closed(text, m.end() - 1, "()")
            parameters = [p.strip() for p in split(text[m.end() : behind - 1])]
            at = behind
            clauses = []
            while at < len(text) and text[at] != "{":
                clause = re.compile(r"\s*(requires|ensures)\b[^{;]*").match(text, at)
                if clause:
                    end = closed(text, clause.end())
                    clauses.append((clause.group(1), text[clause.end() + 1 : end - 1].strip()))
                    at = end
                elif text[at] == ";":
                    break
                else:
                    at += 1
            if at < len(text) and text[at] == "{":
                yield path, line_of(text, m.start()), m.group(1), [p for p in parameters if p], clauses, text[at : closed(text, at)]


def split(text, by=","):
    """By commas outside all brackets."""
    parts, depth, start = [], 0, 0
    for i, c in enumerate(text):
        depth += (c in "([{<") - (c in ")]}>")
        if c == by and depth <= 0:
            parts.append(text[start:i])
            start = i + 1
    return parts + [text[start:]]


def enums():
    for path, text in sources():
        for m in re.finditer(r"\benum (\w+)[^{;]*\{", text):
            body = text[m.end() : closed(text, m.end() - 1) - 1]
            yield path, line_of(text, m.start()), m.group(1), [v.strip() for v in split(body) if v.strip()]


def point_1():
    """Enums of two variants of which one has values; flags beside values; refusals and kinds by number; numbers that say that there is none."""
    for path, line, name, variants in enums():
        if len(variants) == 2 and any("(" in v for v in variants):
            yield path, line, f"enum {name} {{{', '.join(variants)}}}"
    for path, text in sources():
        for m in re.finditer(r"\bstruct (\w+)[^{;]*\{", text):
            body = text[m.end() : closed(text, m.end() - 1) - 1]
            fields = [f.strip() for f in split(body) if ":" in f]
            if any(re.search(r": bool$", f) for f in fields) and len(fields) > 1:
                yield path, line_of(text, m.start()), f"flag in struct {m.group(1)}"
        for m in re.finditer(r"\b(?:Bad|Refused|refused|refusal)\(\d+|\bcode: \d+|\bkind [=!]= \d+|\[at\] [=!]= \d+", text):
            yield path, line_of(text, m.start()), f"by number: {m.group()}"
    for path, text in comments():
        for m in re.finditer(r"//[^\n]*(?:where there is none|0 where|where it is new|where there is no\b)[^\n]*\n(?:\s*//[^\n]*\n)*\s*(?:pub(?:\(crate\))? )?(?:fn|struct) (\w+)[^{]*?(?:-> (?:usize|u32|u16)\b|\{)", text):
            yield path, line_of(text, m.start()), f"none as a number: {m.group(1)}"


def shape(body):
    words = re.findall(r"\w+|[^\s\w]", body)
    return ["T" if w in TYPES else "N" if w[0].isdigit() else w for w in words]


def point_2():
    """Functions whose bodies are the same, or nearly so, but for types and numbers."""
    shapes = []
    for path, line, name, parameters, _, body in functions():
        words = shape(body)
        if len(words) >= 12:
            shapes.append((path, line, name, words, collections.Counter(words)))
    found = {}
    for a, b in itertools.combinations(shapes, 2):
        if abs(len(a[3]) - len(b[3])) * 8 > len(a[3]):
            continue
        if sum((a[4] & b[4]).values()) < 0.85 * max(len(a[3]), len(b[3])):
            continue
        if difflib.SequenceMatcher(None, a[3], b[3], False).ratio() >= 0.9:
            found.setdefault(a[:3], []).append(b[:3])
    for (path, line, name), others in found.items():
        for other in others:
            yield path, line, f"{name} ~ {other[0]}:{other[1]} {other[2]}"


def point_3():
    """Loops with a test that turn a number of their own up or down by a constant, or a `loop` that does."""
    for path, text in sources():
        for m in re.finditer(r"\b(while\b[^{]*|loop )\{", text):
            body = text[m.end() : closed(text, m.end() - 1) - 1]
            for v in set(re.findall(r"\b(\w+) [+-]= \w+;", body)):
                tested = re.search(rf"\b{v}\b", m.group(1)) if m.group(1).startswith("while") else True
                if tested and re.search(rf"\b{v} [+-]= [0-9A-Z_]+;", body):
                    yield path, line_of(text, m.start()), f"{' '.join(m.group(1).split())} .. {v}"
                    break


def point_4():
    """Functions that only cast; casts to a wider type in an expression; structs copied field by field; digits by hand."""
    for path, line, name, _, _, body in functions():
        inner = " ".join(body[1:-1].split())
        if re.fullmatch(r"\w+(?:\[\w+\])? as \w+", inner):
            yield path, line, f"cast: {name}"
        if re.search(r"% 10\b", inner):
            yield path, line, f"digits: {name}"
        for m in re.finditer(r"\b([A-Z]\w*|Self) \{([^{}]*)\}", inner):
            if ".." in m.group(2):
                continue
            copied = re.findall(r"\b(\w+): (\w+)\.\1\b", m.group(2))
            for source, n in collections.Counter(s for _, s in copied).items():
                if n >= 2:
                    yield path, line, f"{n} fields copied: {m.group(1)} in {name}"
        if re.search(r"while [^{]*\{[^}]*(?:!=|==)[^}]*return (?:false|true)", inner):
            yield path, line, f"compared item by item: {name}"
        if re.search(r"(?:while|for) [^{]*\{ (\w+)\[[^\]]*\] = \w+(?:\[[^\]]*\])?;( \w+ \+= 1;)? \}", inner):
            yield path, line, f"copied or filled item by item: {name}"


def point_5():
    """Parts of a `requires` that three functions or more have; three slices or more that three functions or more take together."""
    parts = collections.defaultdict(list)
    for path, line, name, _, clauses, _ in functions():
        for kind, clause in clauses:
            if kind == "requires":
                for part in split(" ".join(clause.split()).replace(" × ", "\0"), "\0"):
                    parts[part.strip().strip("()")].append((path, line, name))
    for part, places in sorted(parts.items(), key=lambda p: -len(p[1])):
        if len(places) >= 3 and not part.endswith(": Goal") and not re.fullmatch(r"\w+ : \w+( \w+)?", part):
            yield places[0][0], places[0][1], f"{len(places)} times: {part}"
    groups = collections.defaultdict(list)
    for path, line, name, parameters, _, _ in functions():
        slices = sorted({re.sub(r"&(?:mut )?", "&", p) for p in parameters if re.search(r": &(?:mut )?\[", p)})
        for group in itertools.combinations(slices, 3):
            groups[group].append((path, line, name))
    for group, places in sorted(groups.items(), key=lambda g: -len(g[1])):
        if len(places) >= 3:
            yield places[0][0], places[0][1], f"{len(places)} together: {', '.join(group)}"


def point_6():
    """A count that is a parameter, and bounds how much of a slice beside it counts."""
    for path, line, name, parameters, clauses, _ in functions():
        numbers = [p.split(":")[0] for p in parameters if re.search(r": usize$", p)]
        for kind, clause in clauses:
            for n in numbers:
                if kind == "requires" and re.search(rf"\b{n} ≤ length (\w+)", clause):
                    yield path, line, f"{name}: {n}"


def point_7():
    """A match on an enum without values that does nothing but choose what to call."""
    plain = {n for _, _, n, vs in enums() if not any("(" in v or "{" in v for v in vs)}
    for path, text in sources():
        for m in re.finditer(r"\bmatch [^{]*\{", text):
            body = text[m.end() : closed(text, m.end() - 1) - 1]
            arms = re.findall(r"(\w+)::\w+(?: \| \w+::\w+)* => (\w+)\(", body)
            if len(arms) >= 2 and {a for a, _ in arms} <= plain:
                yield path, line_of(text, m.start()), f"{m.group()} {', '.join(c for _, c in arms)}"


def point_8():
    """Files of answers and invariants, with their lines."""
    for path in sorted(ROOT.glob("crates/*/proofs/**/*.antt")):
        if path.name in ("Answers.antt", "Invariants.antt"):
            yield path.relative_to(ROOT / "crates"), len(path.read_text().splitlines()), "lines"


def main():
    words = sys.argv[1:]
    listed = "--list" in words
    points = [w for w in words if w.isdigit()] or list("12345678")
    for point in points:
        places = list(globals()[f"point_{point}"]())
        print(f"{point}: {len(places)}  {globals()[f'point_{point}'].__doc__}")
        for path, line, what in places if listed else []:
            print(f"    {path}:{line} {what}")


main()
