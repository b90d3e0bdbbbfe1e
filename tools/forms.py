#!/usr/bin/env python3
"""The places of docs/DESIGN-PASS.md: where the code has a form that today's Rattle has a plainer one for, one line a place.

    tools/forms.py enums      own enums, with their variants
    tools/forms.py flags      fields that are a bool, and u32 results of which 0 or a number says which
    tools/forms.py numbers    refusals and kinds written as numbers
    tools/forms.py loops      `while` loops whose condition's variable is counted by a fixed step, and how (the others: `tools/forms.py walks`)
    tools/forms.py walks      the other `while` loops
    tools/forms.py twins      functions with the same body but for names, types and numbers
    tools/forms.py casts      functions that only convert a number
    tools/forms.py compares   functions that only compare their arguments or the fields of two structs
    tools/forms.py clauses    a clause that stands in the contracts of three or more functions of a crate
    tools/forms.py travel     three or more parameters that three or more functions of a crate take together
    tools/forms.py buffers    lent words with a place or a length beside them
    tools/forms.py switches   a match on an enum of kinds that calls another function in each arm
    tools/forms.py answers    answers, by crate
usage: tools/forms.py WHAT [TREE]     the places of a tree, else of this one; the last line is their number
"""
import glob
import itertools
import os
import re
import sys
from collections import defaultdict

COMMENT = re.compile(r"//[^\n]*")


def sources(tree):
    for path in sorted(glob.glob(os.path.join(tree, "crates/*/src/**/*.rt"), recursive=True)):
        yield os.path.relpath(path, os.path.join(tree, "crates")), open(path, encoding="utf-8").read()


def line_of(text, at):
    return text.count("\n", 0, at) + 1


def block(text, at):
    """The text from the brace at or after `at` to the one that closes it."""
    at = text.index("{", at)
    depth = 0
    for i in range(at, len(text)):
        depth += {"{": 1, "}": -1}.get(text[i], 0)
        if depth == 0:
            return text[at : i + 1]
    return text[at:]


def functions(text):
    """Each function: its place, name, parameters and clauses as they stand, and its body."""
    text = COMMENT.sub(lambda m: " " * len(m.group()), text)
    for m in re.finditer(r"^( *)((?:pub )?(?:extern \"C\" )?fn (\w+))", text, re.M):
        end = re.compile(rf"^{m.group(1)}{{$|\{{[^\n]*\}}$", re.M)
        start = re.search(rf"^{m.group(1)}\{{$", text[m.end() :], re.M)
        if not start:
            continue
        head = text[m.start() : m.end() + start.start()]
        yield line_of(text, m.start()), m.group(3), head, block(text, m.end() + start.start())


def parameters(head):
    inside = head[head.index("(") + 1 :]
    depth, out, word = 1, [], ""
    for c in inside:
        depth += {"(": 1, "[": 1, "<": 1, ")": -1, "]": -1, ">": -1}.get(c, 0)
        if depth == 0:
            break
        if c == "," and depth == 1:
            out.append(word.strip())
            word = ""
        else:
            word += c
    if word.strip():
        out.append(word.strip())
    return [re.sub(r"\s+", " ", p) for p in out]


def enums(tree):
    for path, text in sources(tree):
        for m in re.finditer(r"^ *(?:pub )?enum (\w+)", text, re.M):
            body = COMMENT.sub("", block(text, m.end()))
            yield f"{path}:{line_of(text, m.start())}: {m.group(1)} " + " ".join(body.split())


def flags(tree):
    for path, text in sources(tree):
        for m in re.finditer(r"^ *pub (\w+): bool,", text, re.M):
            yield f"{path}:{line_of(text, m.start())}: {m.group(1)}: bool"
        for m in re.finditer(r"\bif (\w+) != 0 \{\s*return [^;]*\b\1\b", text):
            yield f"{path}:{line_of(text, m.start())}: {m.group(1)} is 0 or a number"


def numbers(tree):
    pattern = re.compile(r"\b(?:Refused\(|offends\(|offence_at\(|number: )[0-9]+|\bkind: u32|\bKIND_[ZT]: u32|\bnumber: u32,|Refused\(u32\)")
    for path, text in sources(tree):
        bare = COMMENT.sub(lambda m: " " * len(m.group()), text)
        for m in pattern.finditer(bare):
            yield f"{path}:{line_of(text, m.start())}: {m.group()}"


def whiles(tree):
    for path, text in sources(tree):
        bare = COMMENT.sub(lambda m: " " * len(m.group()), text)
        for m in re.finditer(r"^ *while ([^{\n]*)", bare, re.M):
            body = block(bare, m.end())
            counted = [v for v in re.findall(r"[a-z_][\w.]*", m.group(1)) if re.search(rf"(?<![\w.]){re.escape(v)} [+-]= (?:\d+|[A-Z_:]+|size|width);", body)]
            yield f"{path}:{line_of(text, m.start())}: while {m.group(1).strip()}", counted


def loops(tree):
    return (f"{place}  ({', '.join(counted)})" for place, counted in whiles(tree) if counted)


def walks(tree):
    return (place for place, counted in whiles(tree) if not counted)


def twins(tree):
    word = re.compile(r"\w+|[^\w\s]")
    keep = {"if", "else", "while", "for", "in", "return", "match", "let", "mut", "as", "true", "false", "loop", "break", "continue"}
    groups = defaultdict(list)
    for path, text in sources(tree):
        for line, name, head, body in functions(text):
            tokens = word.findall(body)
            seen = {}
            shape = tuple(t if t in keep or not re.match(r"\w", t) else seen.setdefault(t, f"x{len(seen)}") for t in tokens)
            if len(tokens) >= 12:
                groups[shape].append(f"{path}:{line}: {name}")
    for shape, places in sorted(groups.items(), key=lambda g: g[1]):
        if len(places) > 1:
            yield f"{len(places)} of {len(shape)} words: " + "  ".join(places)


def casts(tree):
    for path, text in sources(tree):
        for line, name, head, body in functions(text):
            if re.fullmatch(r"\{\s*\w+ as \w+\s*\}", body):
                yield f"{path}:{line}: {name}"


def compares(tree):
    for path, text in sources(tree):
        for line, name, head, body in functions(text):
            if "-> bool" in head and re.search(r"(\w+)\.(\w+) (?:!=|==|<|<=) (\w+)\.\2\b", body):
                yield f"{path}:{line}: {name}"


def clauses(tree):
    found = defaultdict(list)
    for path, text in sources(tree):
        for line, name, head, body in functions(text):
            for m in re.finditer(r"requires (?:\w+ )?\{(.*?)\}\s*$", head, re.M | re.S):
                for fact in re.split(r" × ", " ".join(m.group(1).split())):
                    fact = re.sub(r"\.(?:now|old)\b", "", fact.strip("() "))
                    found[path.split("/")[0], fact].append(name)
    for (crate, fact), names in sorted(found.items()):
        if len(set(names)) >= 3:
            yield f"{crate}: {fact}: {' '.join(sorted(set(names)))}"


def travel(tree):
    found = defaultdict(set)
    for path, text in sources(tree):
        for line, name, head, body in functions(text):
            ps = [re.sub(r"&(?:'\w+ )?(?:mut )?", "&", p) for p in parameters(head) if ":" in p]
            for some in itertools.combinations(sorted(ps), 3):
                found[path.split("/")[0], some].add(name)
    groups = defaultdict(set)
    for (crate, some), names in found.items():
        if len(names) >= 3:
            groups[crate, tuple(sorted(names))] |= set(some)
    for (crate, names), ps in sorted(groups.items()):
        yield f"{crate}: {', '.join(sorted(ps))}: {' '.join(names)}"


def buffers(tree):
    for path, text in sources(tree):
        for line, name, head, body in functions(text):
            ps = parameters(head)
            if any(re.match(r"\w+: &mut \[", p) for p in ps) and any(re.match(r"(?:n|count|at|len|words|size|left|m): (?:u32|usize)$", p) for p in ps):
                yield f"{path}:{line}: {name}({', '.join(ps)})"


def switches(tree):
    for path, text in sources(tree):
        for line, name, head, body in functions(text):
            for m in re.finditer(r"match (\w+) \{", body):
                arms = re.findall(r"=> (?:\{\s*)?(\w+(?:::\w+)*)\(", block(body, m.start()))
                if len([a for a in arms if a[0].islower()]) >= 3:
                    yield f"{path}:{line}: {name}: match {m.group(1)}: {' '.join(arms)}"


def answers(tree):
    for crate in sorted(glob.glob(os.path.join(tree, "crates/*"))):
        n = 0
        for path in glob.glob(os.path.join(crate, "proofs/**/Answers.antt"), recursive=True):
            n += len(re.findall(r"^pub \S+ : goal\.", open(path, encoding="utf-8").read(), re.M))
        if n:
            yield from (f"{os.path.basename(crate)} {i}" for i in range(n))


def main():
    what = sys.argv[1] if len(sys.argv) > 1 else ""
    tree = sys.argv[2] if len(sys.argv) > 2 else os.path.join(os.path.dirname(os.path.abspath(__file__)), "..")
    if what not in {"enums", "flags", "numbers", "loops", "walks", "twins", "casts", "compares", "clauses", "travel", "buffers", "switches", "answers"}:
        sys.exit(__doc__)
    places = list(globals()[what](tree))
    if what == "answers":
        counts = defaultdict(int)
        for place in places:
            counts[place.split()[0]] += 1
        print("\n".join(f"{crate}: {n}" for crate, n in sorted(counts.items())))
    else:
        print("\n".join(places))
    print(f"{len(places)} places")


if __name__ == "__main__":
    main()
