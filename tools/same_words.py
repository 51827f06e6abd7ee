#!/usr/bin/env python3
"""Compares the statements of two commits word by word: the older in the spelling of the older Rattle, the newer in today's.

usage: same_words.py OLD NEW      (commits of this repository)

Each file of specs/ and each clause of src/ that both have is cut into words. They are the same if one renaming of words, which sends no two words of a file to one, makes the one of the
other. Parentheses, `use` lines and comments are left out, and what the two languages write otherwise is brought to one form: a projection, the holes of an operator, a clause's bound result,
`now (x .entry)` for `x.now` and `x.old`, `(x .exit)` for `x.new`, a constant that is asked for. It prints each place that differs, and how many clauses are alike.
"""

import collections
import difflib
import re
import subprocess
import sys


def show(commit, path):
    return subprocess.run(["git", "show", f"{commit}:{path}"], capture_output=True, text=True).stdout


def paths(commit, test):
    out = subprocess.run(["git", "ls-tree", "-r", "--name-only", commit, "crates"], capture_output=True, text=True, check=True).stdout
    return [p for p in out.split() if test(p)]


def operators(text):
    return re.sub(r"_([^\sA-Za-z0-9_{}]+)_", r"◌\1◌", text.replace("′", "'"))


def words_of_specs(text):
    text = re.sub(r"(?m)--.*$", "", text)
    text = re.sub(r"(?m)^ *(pub |unfoldable )*use [^\n]*\n", "\n", text)
    text = re.sub(r"Rattle·\w+(·specs|·proofs)?\.|Rattle\.\w+\.", "Rattle.", text)
    text = re.sub(r"[()]", " ", text)
    return operators(re.sub(r"([;,{}\[\].])", r" \1 ", text)).split()


def compare_specs(old, new):
    def of(commit):
        return set(paths(commit, lambda p: "/specs/" in p and p.endswith(".antt")))

    was, now = of(old), of(new)
    print("files of specs/ that are gone:", sorted(was - now) or "none")
    print("new files of specs/:", sorted(now - was) or "none")
    known, alike = {}, 0
    for path in sorted(was & now):
        a, b = words_of_specs(show(old, path)), words_of_specs(show(new, path))
        if len(a) != len(b):
            turned = [known.get(w, w) for w in a]
            for what, i, j, k, l in difflib.SequenceMatcher(None, turned, b, autojunk=False).get_opcodes():
                if what != "equal" and j - i != l - k:
                    print(f"{path}: {' '.join(a[max(0, i - 4):j + 2])}  =>  {' '.join(b[max(0, k - 4):l + 2])}")
            continue
        there, back = {}, {}
        for x, y in zip(a, b):
            if there.setdefault(x, y) != y:
                print(f"{path}: {x} is {there[x]} and {y}")
            if back.setdefault(y, x) != x:
                print(f"{path}: {back[y]} and {x} are {y}")
        for x, y in there.items():
            if known.setdefault(x, y) != y:
                print(f"{path}: {x} is {y}, and {known[x]} in another file")
        alike += 1
    print(f"files of specs/ that are alike: {alike} of {len(was & now)}")


def clauses(text):
    text = re.sub(r"(?m)//.*$", "", text)
    out, here, owner = collections.OrderedDict(), None, ""
    for m in re.finditer(r"(?m)^impl(?:<[^>]*>)? ?(\w+)|^( *)(?:pub )?(?:const )?fn (\w+)|\b(requires|ensures)\*?(?: \w+)? \{", text):
        if m[1]:
            owner = m[1]
        elif m[3]:
            here = (owner + "::" if m[2] else "") + m[3]
            out.setdefault(here, {"requires": [], "ensures": []})
        elif here:
            deep, end = 1, m.end()
            while deep:
                deep += {"{": 1, "}": -1}.get(text[end], 0)
                end += 1
            out[here][m[4]].append(" ".join(text[m.end() : end - 1].split()))
    return out


def older_clause(text):
    m = re.match(r"λ (\w+)\. (.*)$", text)
    if m:
        text = m[2] if m[1] == "_" else re.sub(rf"(?<![\w.]){m[1]}(?![\w·])", "result", m[2])
    text = re.sub(r"\(?← \(?⟦([^⟧]*)⟧ ?\)?(?: ?\.entry)?\)?", lambda c: c[1].replace("::", "."), text)
    text = re.sub(r"do ⌜|⌜|⌝", "", text)
    text = re.sub(r"now \((\w+) \.entry\)|\bnow (\w+)|now \(\s*(\w+)\s*\)", lambda c: f"{c[1] or c[2] or c[3]}.NOW", text)
    text = re.sub(r"NOW \.exit|now \((\w+) \.exit\)", r"\1.new", text)
    return re.sub(r" ?\.entry\b", "", text)


def words_of_clause(text):
    text = re.sub(r"\.entry\b", "", operators(text))
    return re.sub(r"([,.×])", r" \1 ", re.sub(r"[(){}]", " ", text)).split()


def compare_clauses(old, new):
    known, alike, other = {}, 0, 0
    for path in paths(old, lambda p: "/src/" in p and p.endswith(".rt")):
        was, now = clauses(show(old, path)), clauses(show(new, path))
        for name, each in was.items():
            if name not in now:
                print(f"{path}: {name} is gone")
                continue
            for kind, texts in each.items():
                a = words_of_clause(" × ".join(older_clause(t) for t in texts))
                b = words_of_clause(" × ".join(now[name][kind]))
                fits = len(a) == len(b)
                for x, y in zip(a, b) if fits else ():
                    if x == "NOW":
                        fits &= y in ("now", "old")
                    elif known.setdefault(x, y) != y:
                        print(f"{path}: {name}: {x} is {y}, and {known[x]} elsewhere")
                if fits:
                    alike += len(texts)
                else:
                    other += 1
                    print(f"{path}: {name} {kind}\n    - {' '.join(a)}\n    + {' '.join(b)}")
    print(f"clauses that are alike: {alike}; functions with others: {other}")


compare_specs(*sys.argv[1:3])
compare_clauses(*sys.argv[1:3])
