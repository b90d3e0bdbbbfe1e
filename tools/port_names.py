#!/usr/bin/env python3
"""Brings the repository's own definitions and lemmas to today's spelling: words in snake case (`padTo` is `pad_to`), also inside the
name of a lemma (`countIf-append` is `count_if-append`), and the members and constructors of specs/ with underscores (`may-board` is
`may_board`). Run once, at the top of the repository, after port.py.

usage: tools/port_names.py [--dry]     --dry: prints what would be renamed, and which names would fall together
"""
import os
import re
import sys

IDENT = re.compile(r"(?<![\w'◌-])[A-Za-z_][\w'₀-₉]*(?:-[\w'₀-₉]+)*", re.U)

# Where two names would fall together in a file: members of a record beside the definition that they speak of, and lemmas beside theirs.
APART = {
    "calls-lent": "lent_calls",
    "ranges-lent": "lent_ranges",
    "legs-on": "on_legs",
    "no-LF": "no_lf",
}
LEMMAS = {n: n.replace("_", "-") for n in ("shown_by", "range_back", "call_back", "head_first", "run_along", "all_sound", "from_one", "walk_rows")}
LEMMAS |= {"runs_on": "runs-on-days", "in_order": "in-order"}
del LEMMAS["walk_rows"]
# A member of the record that compares today's table with the one before it, beside the definition of a walk's rows.
MEMBERS = {"crates/whole_runs/": {"walk_rows": "rows_walked"}}


def files(top, endings):
    for folder, dirs, names in os.walk(top):
        dirs[:] = sorted(d for d in dirs if d not in ("out", "target", ".git"))
        for n in sorted(names):
            if n.endswith(endings):
                yield os.path.join(folder, n)


def read(path):
    with open(path, encoding="utf-8") as f:
        return f.read()


def bare(text):
    return re.sub(r"(--|//)[^\n]*", "", text)


def snake(word):
    """padTo: pad_to; notLF: not_lf; t2At: t2_at; inline2: inline2."""
    word = re.sub(r"(?<=[a-z0-9₀-₉'])([A-Z]+)(?![a-z])", lambda m: "_" + m.group(1).lower(), word)
    word = re.sub(r"(?<=[a-z0-9₀-₉'])([A-Z])", lambda m: "_" + m.group(1).lower(), word)
    return word.lower() if not word[:1].isupper() else word


def is_camel(word):
    return word[:1].islower() and re.search("[A-Z]", word)


def turned(name):
    return "-".join(snake(p) if is_camel(p) else p for p in name.split("-"))


def members(text):
    """Fields of records and constructors of data in a file of specs/ whose names have a dash."""
    found, inside = set(), False
    for line in bare(text).split("\n"):
        if re.match(r"\s*(?:unfoldable |abbrev )?(?:pub )?(?:data|record) ", line):
            inside = line.rstrip().endswith("where")
            continue
        if inside and line.strip() and not line.startswith(" "):
            inside = False
        if inside:
            m = re.match(r"  (?:pub )?((?:[a-z][\w']*)(?:-[\w']+)+)(?: [^:]*)? : ", line)
            if m:
                found.add(m.group(1))
    return found


def foreign(text):
    """Names that a file takes from outside the repository's own crates."""
    own = set(os.listdir("crates"))
    found = set()
    for m in re.finditer(r"\buse ([\w.'-]+)\.\{([^}]*)\}", text):
        path = m.group(1).split(".")
        if not (path[0] == "Rattle" and path[1] in own):
            for item in m.group(2).split(","):
                found.add(item.strip().split(" as ")[0].strip())
    return found


def lemmas_of(path, texts):
    """Which names of LEMMAS are a lemma's in this file: stated in it, or taken from a file of proofs that states it."""
    if not path.endswith(".antt") or "/proofs/" not in path:
        return set()
    stated = lambda t: {n for n in LEMMAS if re.search(r"^ *(?:pub )?" + n + r" : ", t, re.M)}
    found = stated(texts[path])
    for m in re.finditer(r"\buse Rattle\.(\w+)\.proofs\.([\w.]+)(?:\.\{([^}]*)\})?", texts[path]):
        other = os.path.join("crates", m.group(1), "proofs", *m.group(2).split(".")) + ".antt"
        if other in texts:
            taken = {w.strip().split(" as ")[0] for w in (m.group(3) or "").split(",")}
            found |= {n for n in stated(texts[other]) if n in taken or not m.group(3)}
    return found


def main(dry):
    antt = list(files("crates", (".antt",)))
    rt = list(files("crates", (".rt",)))
    texts = {p: read(p) for p in antt + rt}
    outside = set()
    for t in texts.values():
        outside |= foreign(t)
    seen, dashed = {}, set()
    for p in antt + rt:
        for m in IDENT.finditer(bare(texts[p])):
            seen.setdefault(m.group(), set()).add(p)
        if p.endswith(".antt") and "/specs/" in p:
            dashed |= members(texts[p])
    names = {}
    for n in seen:
        if n in outside:
            continue
        new = turned(n)
        if n in dashed:
            new = new.replace("-", "_")
        new = APART.get(n, new)
        if new != n:
            names[n] = new
    by_new = {}
    for o, n in names.items():
        by_new.setdefault(n, []).append(o)
    if dry:
        print(len(names), "names")
        for o in sorted(names):
            print("  ", o, names[o])
        print("== fall together")
        for n, os_ in sorted(by_new.items()):
            if len(os_) > 1:
                print(n, "from", os_)
            if n in seen or n in outside:
                print(n, "from", os_, "stands already:", sorted(seen.get(n, []))[:6], "outside" if n in outside else "")
        return
    edits = list(files("crates", (".edit",)))
    papers = list(files("docs", (".md",))) + ["README.md"] + [p for p in files("tools", (".sh",))] + [p for p in files("crates", (".md",))] 
    changed = 0
    for p in antt + rt + edits + papers:
        old = read(p)
        in_paper = p in papers
        near = lemmas_of(p, texts)
        def one(m):
            n = m.group()
            if p.endswith(".antt") and n in near and old[m.start() - 1 : m.start()] != ".":
                return LEMMAS[n]
            for folder, members_there in MEMBERS.items():
                if p.startswith(folder) and n in members_there:
                    return members_there[n]
            if n.startswith("b'"):
                return n
            if in_paper and n in dashed and not is_camel(n):
                return n
            if in_paper and n not in names and is_camel(n) and turned(n) in seen:
                return turned(n)
            return names.get(n, n)
        new = IDENT.sub(one, old)
        if new != old:
            with open(p, "w", encoding="utf-8") as f:
                f.write(new)
            changed += 1
    print(changed, "files")


if __name__ == "__main__":
    main("--dry" in sys.argv[1:])
