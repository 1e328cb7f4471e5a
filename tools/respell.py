#!/usr/bin/env python3
"""Brings the repository's own definitions and lemmas to the spelling of today's Rattle: types in camel case, all else in snake case, and a dash only between two names.

usage: python3 tools/respell.py        at the top of the repository, once, right after the kit's port.py
       python3 tools/respell.py table  prints the names that change, and changes nothing

It goes by whole words: two names that would fall together, or a new spelling that is declared already, are refused. Functions of src/, exported C names and strings keep their names.
"""

import collections
import os
import re
import subprocess
import sys

ROOT = os.path.dirname(os.path.dirname(os.path.realpath(__file__)))
NAME = r"[^\s(){}\[\];,.λ\"]+"
WORD = re.compile(r"[^\s(){}\[\];,.\"`]+")
SIGNATURE = re.compile(r"^(\s*)((?:pub |abbrev |unfoldable )*)(" + NAME + r") : (.*)$")
DECLARED = re.compile(r"^(\s*)(?:pub )?(data|record) (" + NAME + r")")
SORTS = ("ℕ", "Bool", "List", "Option", "Dec", "Discrete", "Expr", "Subst", "Type")
GHOST = re.compile(r"ghost\s+use\b[^;]*;|(?:requires|ensures)\s*\*?\s*(?:\w+\s*)?\{|ghost\s*(?:\w+\s*(?::\s*|=\s*))?\{")
# Where the plain spelling is another name's already.
CHOSEN = dict(
    w.split("=")
    for w in """in-range=within_range inSize=is_in_size inOrder=is_in_order flatOf=flat_check_of flatBook=flat_book_of byte-limit=byte_limit_lem word-of=word_for given-of=given_from
    goal-of=goal_in readNames=names_read isOpening=is_opening_found sortOf=sort_of_kind arity-of=arity_in clause-of=clause_from symbol-of=symbol_for atA=at_first leftIn=left_fits with-one=with_one_more
    goOn=go_further Set-up=IsSetUp Flat-book=IsFlatBook Under-way=IsUnderWay""".split()
)
# Words of the logic and its library that lemmas are named after.
LIBRARY = "append nil cons length take drop set reverse map replicate subst sym add mul max min pow suc zero true false yes no none some left right".split()


def files(*ends):
    for folder, dirs, names in os.walk(os.path.join(ROOT, "crates")):
        dirs[:] = sorted(d for d in dirs if d != "out")
        for n in sorted(names):
            if n.endswith(ends):
                yield os.path.join(folder, n)


def text_of(path):
    with open(path, encoding="utf-8") as f:
        return f.read()


def declared():
    """Each name that a file of specs/ or proofs/ declares, with what it is there."""
    kinds = collections.defaultdict(set)
    for path in files(".antt"):
        lines = text_of(path).split("\n")
        outer = []
        for i, line in enumerate(lines):
            if not line.strip() or line.strip().startswith("--"):
                continue
            depth = len(line) - len(line.lstrip())
            while outer and outer[-1][0] >= depth:
                outer.pop()
            m = DECLARED.match(line)
            if m:
                kinds[m[3]].add("type")
                outer.append((depth, m[2]))
                continue
            m = SIGNATURE.match(line)
            if not m or line.strip().startswith(("use ", "let ", "in ", "module ")):
                continue
            whole = m[4]
            for more in lines[i + 1 :]:
                if not more.strip() or len(more) - len(more.lstrip()) <= depth or " = " in more or more.strip().startswith("where"):
                    break
                whole += " " + more.strip()
            if outer:
                kinds[m[3]].add("part")
            elif re.search(r"(→ |^)Type \d+$", whole.strip()):
                kinds[m[3]].add("type")
            else:
                last = whole.split("→")[-1].strip()
                sort = last.split()[0] if last else ""
                computes = "abbrev" in m[2] or "unfoldable" in m[2] or (sort in SORTS and not re.search(r" [≡≤<↔] ", last))
                kinds[m[3]].add("function" if computes else "lemma")
    return kinds


def snake(word):
    word = re.sub(r"([a-z0-9])([A-Z])", lambda m: m[1] + "_" + m[2].lower(), word)
    return word


def camel(name):
    return "".join(p[:1].upper() + p[1:] for p in name.split("-"))


def lemma(name, known):
    """Dashes stay between two names; a plain word is added with an underscore."""
    parts = name.split("-")
    out = parts[0]
    segment = parts[0]
    for i, p in enumerate(parts[1:], 1):
        rest = ["_".join(parts[i:j]) for j in range(len(parts), i, -1)]
        if segment in known and any(r in known for r in rest):
            out += "-" + p
            segment = p
        else:
            out += "_" + p
            segment += "_" + p
    return out


def table():
    kinds = declared()
    known = set(LIBRARY)
    for name, kind in kinds.items():
        if kind & {"type", "function", "part"}:
            known.add(snake(name.replace("-", "_")) if not name[0].isupper() else snake(name[0].lower() + name[1:]).replace("-", "_").lower())
    new = {}
    for name, kind in kinds.items():
        if not re.search(r"-|[a-z][A-Z]", name) or re.search(r"[≡≤<≢]", name):
            continue
        if name[0].isupper():
            if "type" in kind and "-" in name:
                new[name] = camel(name)
        elif "lemma" in kind and not kind & {"part", "function", "type"}:
            new[name] = lemma("-".join(snake(p) for p in name.split("-")), known)
        else:
            new[name] = "_".join(snake(p) for p in name.split("-"))
    new.update(CHOSEN)
    return {a: b for a, b in new.items() if a != b}


def ghosts(text):
    """The text in pieces: whether it is a clause or a ghost item, and the piece."""
    at = 0
    for m in GHOST.finditer(text):
        if m.start() < at:
            continue
        end = m.end()
        if not m[0].endswith(";"):
            depth = 1
            while depth and end < len(text):
                depth += {"{": 1, "}": -1}.get(text[end], 0)
                end += 1
        yield False, text[at : m.start()]
        yield True, text[m.start() : end]
        at = end
    yield False, text[at:]


def turner(new):
    def one(m):
        w = m[0]
        bare = w.rstrip("'")
        if bare in new:
            return new[bare] + w[len(bare) :]
        for made in ("-discrete",):
            if bare.endswith(made) and bare[: -len(made)] in new:
                return new[bare[: -len(made)]] + made
        return w

    return lambda t: WORD.sub(one, t)


def spans(text, turn):
    return re.sub(r"`[^`\n]+`", lambda m: turn(m[0]), text)


def main(argv):
    new = table()
    fall = collections.defaultdict(list)
    for a, b in new.items():
        fall[b].append(a)
    kinds = declared()
    clash = [b for b, a in fall.items() if len(a) > 1 or (b in kinds and b not in new)]
    if clash:
        print("names fall together: " + " ".join(sorted(clash)), file=sys.stderr)
        return 1
    if argv == ["table"]:
        for a in sorted(new):
            print(a + "\t" + new[a])
        return 0
    turn = turner(new)
    for path in files(".antt"):
        old = text_of(path)
        t = "\n".join(spans(l, turn) if l.lstrip().startswith("--") else turn(l) for l in old.split("\n"))
        if t != old:
            open(path, "w", encoding="utf-8").write(t)
    for path in files(".rt"):
        old = text_of(path)
        t = "".join(turn(p) if g else spans(p, turn) for g, p in ghosts(old))
        if t != old:
            open(path, "w", encoding="utf-8").write(t)
    for folder in sorted({p.split("/src/")[0] for p in files(".rt")}):
        subprocess.run(["rt", "fmt"], cwd=folder, stdout=subprocess.DEVNULL, stderr=subprocess.DEVNULL)
    print(f"{len(new)} names respelled")
    return 0


if __name__ == "__main__":
    raise SystemExit(main(sys.argv[1:]))
