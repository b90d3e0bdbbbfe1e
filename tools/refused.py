#!/usr/bin/env python3
"""That each wrong program of the must-fail edits is refused by itself, at the fact that no longer holds.

An edit costs a check of its whole crate, so it holds every wrong program that can stand beside the others: each of another function, or of
another way out of one. A function is proved against contracts alone, so what is refused of one is not refused for another's sake. Of each the
edit says, in lines that rt passes over,

    wrong: NAME                    its name, by which papers call it; tools/wrong.sh lists them
    refused at: FILE DECLARATION   the declaration of the proofs that must fail, for its own fact: not because another one does, nor because
                                   the proof no longer fits the code's shape; of a goal without an answer of its own, the file that would have it

usage: tools/refused.py [CRATE ..]     the edits of these crates, or of all: each is checked in a copy, several crates at a time
Ends with 'refused.py: N wrong programs in M edits, each refused at its own place'.
"""
import glob
import os
import re
import shutil
import subprocess
import sys
import tempfile
from concurrent.futures import ThreadPoolExecutor
from queue import Queue

# an error that comes from another one, or from a name that is gone, says nothing of the fact
SECONDARY = re.compile(r"was not admitted|were not admitted|was rejected|that can be named from here|has no field|is not in scope")
# a message goes on in the lines below that are set in
ANSWER = re.compile(r"^\./(proofs/\S+?):\d+:\d+: error: `([^`]+)`: (.*(?:\n[ \t].*)*)", re.M)
LEFT_OPEN = re.compile(r"expected answers in \./(proofs/\S+?); `search` did not prove (.*?)(?:; it calls|$)", re.M)


def wrong_programs(edit):
    """The wrong programs of an edit, each with its place; a ValueError where one has no place, changes nothing, or has another's place."""
    programs, places, pairs, now = [], set(), [], None

    def ended():
        if now and (now["place"] is None or not now["changes"]):
            raise ValueError(f"{edit}: {now['name']} has no place, or changes nothing")

    file = None
    for line in open(edit, encoding="utf-8").read().split("\n"):
        if line.startswith("wrong: "):
            ended()
            now = {"name": line[7:].strip(), "place": None, "changes": 0}
            programs.append(now)
        elif line.startswith("refused at: "):
            place = tuple(line.split()[2:4])
            if now is None or len(place) != 2 or place in places:
                raise ValueError(f"{edit}: a place of no wrong program, or of two: {' '.join(place)}")
            places.add(place)
            now["place"] = place
        elif line.startswith("file: "):
            file = line[6:].strip()
        elif line.startswith("old: "):
            pairs.append([file, line[5:], None])
        elif line.startswith("new:"):
            if now is None or now["place"] is None:
                raise ValueError(f"{edit}: a change before its wrong program is named")
            now["changes"] += 1
            pairs[-1][2] = line[5:]
    ended()
    if not programs:
        raise ValueError(f"{edit}: it names no wrong program")
    return programs, pairs


def failed_places(log):
    """The declarations that fail for their own fact."""
    found = {(m.group(1), m.group(2)) for m in ANSWER.finditer(log) if not SECONDARY.search(m.group(3))}
    for m in LEFT_OPEN.finditer(log):
        found |= {(m.group(1), name) for name in re.findall(r"`([^`]+)`", m.group(2))}
    return found


def refusals(edit, tree):
    """Applies the edit in the copy `tree`, checks its crate there, and puts the files back; what is wrong with its places."""
    crate = edit.split("/")[1]
    try:
        programs, pairs = wrong_programs(edit)
    except ValueError as error:
        return [], [str(error)]
    texts = {}
    for file, old, new in pairs:
        path = f"{tree}/crates/{crate}/{file}"
        text = texts.get(path) or open(path, encoding="utf-8").read()
        if text.count(old) != 1:
            return programs, [f"{edit}: '{old}' stands {text.count(old)} times in {file}"]
        texts[path] = text.replace(old, new)
    was = {path: open(path, encoding="utf-8").read() for path in texts}
    for path, text in texts.items():
        with open(path, "w", encoding="utf-8") as to:
            to.write(text)
    ran = subprocess.run(["rt", "check"], cwd=f"{tree}/crates/{crate}", stdout=subprocess.PIPE, stderr=subprocess.STDOUT, text=True, errors="replace")
    for path, text in was.items():
        with open(path, "w", encoding="utf-8") as to:
            to.write(text)
    if not re.search(r"^logic=not-proved", ran.stdout, re.M):
        return programs, [f"{edit}: its check gave no verdict, or proved it: {ran.stdout[-300:]}"]
    found = failed_places(ran.stdout)
    bad = []
    for program in programs:
        file, name = program["place"]
        # a clause of the declaration is the declaration's
        if not any(f == file and (n == name or n.startswith(name + "-clause-")) for f, n in found):
            near = sorted(n for f, n in found if f == file)
            bad.append(f"{crate}/{program['name']}: not refused at {file}, {name}" + (f"; there fails {', '.join(near)}" if near else f"; refused are {sorted(found)[:6]}"))
    return programs, bad


def link_or_copy(one, other):
    """What a check keeps, it replaces and does not change, so copies can share it (`rt` itself does so)."""
    if one.endswith(".oantt") or "/out/rlib/" in one:
        try:
            return os.link(one, other)
        except OSError:
            pass
    return shutil.copy2(one, other)


def size(crate):
    """How long the checks of a crate's edits may take, by its text: the longest begin first."""
    return sum(os.path.getsize(path) for path in glob.glob(f"crates/{crate}/**/*.*", recursive=True) if "/out/" not in path)


def main(crates):
    os.chdir(os.path.join(os.path.dirname(os.path.realpath(__file__)), ".."))
    edits = {}
    for edit in sorted(glob.glob("crates/*/must-fail/*.edit")):
        if not crates or edit.split("/")[1] in crates:
            edits.setdefault(edit.split("/")[1], []).append(edit)
    trees = Queue()
    count = min(os.cpu_count() or 1, len(edits)) or 1
    # outside the tree: `rt ci` reads no second list of crates below it
    with tempfile.TemporaryDirectory(prefix="refused-") as room:
        for number in range(count):
            tree = f"{room}/{number}"
            os.mkdir(tree)
            for name in ("crates.txt", "HANDLES"):
                if os.path.exists(name):
                    shutil.copy(name, tree)
            shutil.copytree("crates", f"{tree}/crates", copy_function=link_or_copy)
            trees.put(tree)

        # one edit of a crate after the other in one copy, since a check goes on from the one before it
        def tried(crate):
            tree = trees.get()
            try:
                return [refusals(edit, tree) for edit in edits[crate]]
            finally:
                trees.put(tree)

        programs = failed = 0
        with ThreadPoolExecutor(count) as pool:
            for results in pool.map(tried, sorted(edits, key=size, reverse=True)):
                for found, bad in results:
                    programs += len(found)
                    failed += len(bad)
                    for line in bad:
                        print(line, flush=True)
    if failed or not programs:
        return 1
    print(f"refused.py: {programs} wrong programs in {sum(len(it) for it in edits.values())} edits, each refused at its own place")
    return 0


if __name__ == "__main__":
    sys.exit(main(sys.argv[1:]))
