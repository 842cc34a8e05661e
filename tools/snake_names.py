#!/usr/bin/env python3
"""Brings the repository's own definitions, lemmas, fields and constructors to snake case, as today's Rattle spells words.

usage: tools/snake_names.py [--check]      at the top of the repository; --check only says what would be done

`port.py` left most of our own names as they were, in kebab-case (lemmas) or lowerCamelCase (definitions). This script takes every such name that
a file of specs/ or proofs/ declares and writes it in snake case wherever it stands: in specs/ and proofs/, in the clauses and ghost items of src/,
in must-fail edits, and between backticks in comments and pages. Names of functions of src/, exported names and strings stay as they are; so does
every name of a library of the kit. Where two names fall together, the definition has the plain name and the lemma gets `_lem`.
It was run once, right behind port.py.
"""

import collections
import glob
import os
import re
import subprocess
import sys

TOKEN = re.compile(r"(?<![A-Za-z0-9_'₀-₉·-])[A-Za-z_][A-Za-z0-9_'₀-₉κ<≤≡-]*")
HEAD = re.compile(r"^\s{0,6}(?:(?:abbrev|unfoldable|pub|opaque|private|instance)\s+)*([A-Za-z_][^\s:(){};,.]*)\s+(?::|\(|\{)")
FIELDS = re.compile(r"^  ((?:[a-z][^\s:(){};,.]*\s+)+):")
TICKED = re.compile(r"`[^`\n]*`")
# Where two names of specs/ would fall together, or one would hide behind a local name.
CHOSEN = {
    "byControl": "edited_by_control",
    "byLabel": "edited_by_label",
    "dsid-laid": "dsid_is_laid",
    "dspm-laid": "dspm_is_laid",
    "prim-good": "prim_is_good",
    "objl-good": "objl_is_good",
}
LOCAL = [("crates/records/proofs/WrittenLaws.antt", "in_row", "row_is_in")]


def antt_files():
    return sorted(glob.glob("crates/*/specs/**/*.antt", recursive=True) + glob.glob("crates/*/proofs/**/*.antt", recursive=True))


def snake(name):
    name = name.replace("-", "_")
    if name[0].islower():
        name = re.sub(r"([a-z0-9])([A-Z])", r"\1_\2", name).lower()
    return name


def is_old(name):
    return "-" in name.strip("-") or (name[0].islower() and re.search(r"[A-Z]", name))


def declared():
    """Every name that specs/ and lemma files declare, with the files; and those that come from the kit."""
    found, kit = collections.defaultdict(set), set()
    own = set(os.listdir("crates"))
    for path in antt_files():
        proof = os.path.basename(path) in ("Proof.antt", "Answers.antt", "Invariants.antt")
        for line in open(path, encoding="utf-8"):
            m = re.match(r"\s*(?:pub )?use ([^\s{]+?)(?:\.\{(.*)\})?(?: as \S+)?\s*$", line)
            if m:
                top = m[1].split(".")
                if m[2] and not (top[0] == "Rattle" and len(top) > 1 and top[1] in own):
                    kit.update(n.strip().split(" ")[0] for n in m[2].split(","))
                continue
            if proof or line.lstrip().startswith("--"):
                continue
            m = HEAD.match(line)
            if m:
                found[m[1]].add(path)
            m = FIELDS.match(line)
            if m:
                for n in m[1].split():
                    found[n].add(path)
            for n in TOKEN.findall(line.split(" --")[0]):  # locals, and what is declared in other forms
                if n[0].islower() and is_old(n):
                    found[n].add(path)
    return found, kit


def turned_before():
    """What port.py turned already: names that the last commit declares, gone now, whose snake case is declared now. For pages and edits, which it left."""
    now, kit = declared()
    then = set()
    for path in subprocess.run(["git", "ls-files", "crates/*.antt"], capture_output=True, text=True, check=True).stdout.split():
        if os.path.basename(path) in ("Proof.antt", "Answers.antt", "Invariants.antt") or not os.path.exists(path):
            continue
        old = subprocess.run(["git", "show", f"HEAD:{path}"], capture_output=True, text=True, check=True).stdout
        for line in old.splitlines():
            for m in filter(None, [HEAD.match(line)]):
                then.add(m[1])
            m = FIELDS.match(line)
            then |= set(m[1].split()) if m else set()
    return {n: snake(n) for n in then if is_old(n) and n not in now and n not in kit and snake(n) in now}


def plan():
    found, kit = declared()
    old = {n for n in found if is_old(n) and n not in kit}
    plain = collections.defaultdict(set)
    for n in found:
        plain[CHOSEN.get(n) or snake(n) if n in old else n].add(n)
    to, lemmas = {}, {}
    for n in old:
        to[n] = CHOSEN.get(n) or snake(n)
    for new, names in plain.items():
        if len(names) < 2 and new not in kit:
            continue
        for n in sorted(names):
            in_specs = any("/specs/" in p for p in found[n])
            if in_specs and new not in kit:
                continue
            if n in old:
                to[n] = new + "_lem"
            elif new not in kit:
                lemmas[n] = new + "_lem"
        left = [n for n in names if to.get(n, lemmas.get(n, n)) == new]
        if len(left) > 1:
            print("fall together:", new, {n: sorted(found[n]) for n in left})
    return found, to, lemmas


def turn_text(text, to):
    return TOKEN.sub(lambda m: to.get(m[0], m[0]), text)


def turn_comment(text, to):
    return TICKED.sub(lambda m: turn_text(m[0], to), text)


def split_strings(text):
    return re.split(r'("(?:[^"\\]|\\.)*")', text)


def turn_line(line, to, mark):
    """A line of code, whose comment begins with mark: names in code, and in the comment those between backticks."""
    parts = split_strings(line)
    out, comment = [], False
    for k, part in enumerate(parts):
        if comment:
            out.append(turn_comment(part, to))
        elif k % 2:
            out.append(part)
        elif re.search(r"(^|\s)" + re.escape(mark), part):
            at = re.search(r"(^|\s)" + re.escape(mark), part).start()
            rest = part[at:] + "".join(parts[k + 1:])
            out.append(turn_text(part[:at], to) + turn_comment(rest, to))
            return "".join(out)
        else:
            out.append(turn_text(part, to))
    return "".join(out)


def turn_lemma(text, path, lemmas, found):
    """Names that stand in snake case already and give way: only where this file declares or imports them, and never as a part of a path."""
    here = {n for n in lemmas if path in found[n]}
    for m in re.finditer(r"^\s*use (Rattle\.[\w.]*?proofs\.\w+)\.\{(.*)\}", text, re.M):
        here |= {n.strip() for n in m[2].split(",") if n.strip() in lemmas}
    if not here:
        return text
    return re.sub(r"(?<![A-Za-z0-9_'₀-₉.-])(" + "|".join(map(re.escape, sorted(here))) + r")(?![A-Za-z0-9_'₀-₉-]|\.[a-z])", lambda m: lemmas[m[1]], text)


def main():
    before = turned_before()
    found, to, lemmas = plan()
    pages = {n: lemmas.get(t, t) for n, t in before.items()} | to
    print(f"{len(before)} names turned before, by port.py")
    print(f"{len(to)} names turned, {len(lemmas)} lemmas give way: {sorted(lemmas.items())}")
    print("with _lem:", sorted((n, t) for n, t in to.items() if t.endswith("_lem")))
    if "--check" in sys.argv:
        return
    for path in antt_files():
        text = open(path, encoding="utf-8").read()
        new = turn_lemma(text, path, lemmas, found)
        for where, local, other in LOCAL:
            if where == path:
                new = re.sub(rf"(?<![\w.-]){local}(?![\w-])", other, new)
        new = "".join(turn_line(line, to, "--") for line in new.splitlines(True))
        if new != text:
            open(path, "w", encoding="utf-8").write(new)
    for path in sorted(glob.glob("crates/*/src/**/*.rt", recursive=True)):
        text = open(path, encoding="utf-8").read()
        new = "".join(turn_line(line, to, "//") for line in text.splitlines(True))
        if new != text:
            open(path, "w", encoding="utf-8").write(new)
    for path in sorted(glob.glob("crates/*/must-fail/*.edit")):
        text = open(path, encoding="utf-8").read()
        new = "".join(turn_text(line, pages) if line.startswith(("old:", "new:")) else turn_comment(line, pages) for line in text.splitlines(True))
        if new != text:
            open(path, "w", encoding="utf-8").write(new)
    for path in sorted(glob.glob("*.md") + glob.glob("**/*.md", recursive=True)):
        if path.startswith("target/") or "/out/" in path:
            continue
        text = open(path, encoding="utf-8").read()
        new = turn_comment(text, pages)
        if new != text:
            open(path, "w", encoding="utf-8").write(new)


main()
