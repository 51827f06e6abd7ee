#!/usr/bin/env python3
"""Spells this repository's own definitions and lemmas by today's rules, after port.py has run.

usage: respell.py ROOT [--list]

Words are in snake case: `zeroLink` becomes `zero_link`, `count-all` becomes `count_all`. A dash stays where it joins two names of definitions, or a type
to a name. Fields have no dash. Names of src/, of libraries, and those that Rattle makes stay. --list prints the names and changes nothing.
"""
import collections
import glob
import os
import re
import sys

NAME = r"[^\s(){}.;,@\"«»\[\]\\|]+"
TOKEN = re.compile(r"--[^\n]*|\"(?:[^\"\\]|\\.)*\"|" + NAME)
WORDS = "abbrev unfoldable pub record data"
DECLARED = re.compile(rf"^\s*((?:(?:{WORDS.replace(' ', '|')})\s+)*)({NAME})\s*(?:[({{].*)?:(?:\s|$)")
BINDER = re.compile(rf"[({{]((?:{NAME} +)*{NAME}) : |λ ((?:{NAME} ?)+)\.|\blet ({NAME}) (?::|=)")
USE = re.compile(r"^\s*(?:pub |ghost )?use ([^\s;{]+?)\.?\{([^;}]*)\}|^\s*(?:pub |ghost )?use ([^\s;{]+) as (\S+)", re.M)
DASHED = re.compile(r"(?<=[\w'])-(?=[\w'])")
HUMP = re.compile(r"(?<=[a-z0-9])[A-Z]")
STD = set("length take drop map append sum count concat flatten replicate get_or set reverse and or not all any".split())


def read(path):
    with open(path, encoding="utf-8") as it:
        return it.read()


def files(root, *patterns):
    return sorted(f for p in patterns for f in glob.glob(os.path.join(root, "crates", "*", *p.split("/")), recursive=True) if "/out/" not in f)


def from_library(text):
    out = set()
    for m in USE.finditer(text):
        path = m[1] or m[3]
        if not re.match(r"(Rattle\.(?!std\b|core\b|std_|libc\b|io\b|os\b))", path):
            for it in (m[2] or m[4] or "").split(","):
                out |= {w.strip() for w in re.split(r"\bas\b", it)}
    return {re.sub("◌", "", it) for it in out} | out


def snake(word):
    if not word[0].isupper():
        word = HUMP.sub(lambda m: "_" + m[0].lower(), word)
    return word


def gather(root):
    antt = files(root, "specs/**/*.antt", "proofs/**/*.antt")
    declared, fields, words, library, made, tokens = set(), set(), set(STD), set(), set(), collections.defaultdict(set)
    for f in antt:
        text = read(f)
        walk = f.endswith("/Proof.antt")
        lib = from_library(text)
        library |= lib
        inside = False
        for line in text.splitlines():
            m = DECLARED.match(line)
            if m and "--" not in line[: m.end()]:
                if walk and re.search(r":\s*(?:.*→ )?(tie\.(Need|InvT|MeasureT)|statement)", line):
                    made.add(m[2])
                else:
                    declared.add(m[2])
                    if "/specs/" in f:
                        words.add(snake(m[2]))
                    if inside and line.startswith(" "):
                        fields.add(m[2])
            if re.match(r"\s*(pub )?record\b", line):
                inside = True
            elif line.strip() and not line.startswith(" "):
                inside = False
            for b in BINDER.finditer(line):
                for it in (b[1] or b[2] or b[3]).split():
                    if not walk or DASHED.search(it):
                        declared.add(it)
        for t in TOKEN.findall(text):
            if not t.startswith(("--", '"')):
                tokens[t].add(f)
    return antt, declared, fields, words, library, made, tokens


def fields_of_source(root):
    out = set()
    for f in files(root, "src/**/*.rt"):
        out |= set(re.findall(r"(?m)^    (?:pub )?(\w+): [^;]*,$", read(f)))
    return out


def own_tokens(text):
    """The words of a text that stand for themselves: no path of a module, no field behind a dot."""
    text = re.sub(r"Rattle\.[^\s{]*", "", text)
    return {t for t in re.findall(rf"(?<![^\s(){{}};,@|\[\]«»]){NAME}", re.sub(r"(?m)--.*$", "", text))}


def table(root):
    antt, declared, fields, words, library, made, tokens = gather(root)
    out = dict(GIVEN)
    for it in sorted(declared):
        if it in out or not re.search(r"[A-Za-z]", it) or not (DASHED.search(it) or (HUMP.search(it) and not it[0].isupper())):
            continue
        if it in made and it not in fields:
            continue
        parts = [snake(p) for p in DASHED.split(it)]
        new = parts[0]
        for n, p in enumerate(parts[1:], 1):
            rest = "_".join(parts[n:])
            keep = it not in fields and (new in words and rest in words or new[0].isupper())
            new += ("-" if keep else "_") + p
        if new != it:
            out[it] = new
    back = collections.defaultdict(list)
    for a, b in out.items():
        back[b].append(a)
    for b, olds in back.items():
        if len(olds) > 1:
            for a in olds:
                if DASHED.search(a):
                    out[a] = b + ("_is" if a in fields else "_lem")
    return out, antt, fields, declared, library


def meetings(root, names, antt):
    """The files in which a new name meets another word of the same spelling."""
    back = collections.defaultdict(set)
    for a, b in names.items():
        back[b].add(a)
    for f in antt + files(root, "src/**/*.rt"):
        has = own_tokens(read(f)) if f.endswith(".antt") else set(re.findall(NAME, " ".join(clauses(read(f)))))
        for b, olds in back.items():
            here = olds & has
            if here and (b in has and b not in names or len(here) > 1):
                print("meets:", f, b, *sorted(here))
    source = fields_of_source(root)
    for a, b in names.items():
        if b in source and not DASHED.search(a):
            print("field of source:", a, b)
    for f in files(root, "src/**/*.rt"):
        text = read(f)
        for m in re.finditer(r"(?m)^ *(?:pub )?(?:const |unsafe )?fn (\w+)[^(]*\(([^)]*)\)[^{;]*((?:\n *(?:requires|ensures)[^\n]*)*)", text):
            given = set(re.findall(r"(\w+):", m[2]))
            cited = {names.get(t, None) for t in re.findall(NAME, m[3])}
            for b in given & cited:
                print("parameter:", f, m[1], b)


def clauses(text):
    return re.findall(r"(?m)^ *(?:requires|ensures)\*?[^\n]*$|^ *ghost [^\n]*$", text)


# Where the plain spelling would be that of another word, or of a field of src/.
GIVEN = {
    "outOfService": "is_out_of_service",
    "is_digit": "is_digit_lem",
    "one_down": "one_down_lem",
    "part_bytes": "part_bytes_lem",
    "ring_of": "ring_of_lem",
    "roundBegin": "round_begin_of",
    "round_with": "round_with_is",
    "run_on": "run_on_lem",
    "buffer_after": "buffer_now",
}


# A constant in a clause is named as it stands: `Plant.MAX_LINKS`.
ASKED = re.compile(r"\(← \(⟦([^⟧]*)⟧\)\.entry\)|\(← ⟦([^⟧]*)⟧\)")
CONSTANT = re.compile(r"^( *(?:requires|ensures))\*( \w+)? \{ do ⌜ (.*) ⌝ \}$", re.M)


def plain_clause(m):
    return f"{m[1]}{m[2] or ''} {{ " + ASKED.sub(lambda c: (c[1] or c[2]).replace("::", "."), m[3]) + " }"


def respell(text, names, path):
    """The text with each of the words of `names` in its new spelling. A word of GIVEN without a hump may be a name of src/ too: it stays there, and behind a dot in a proof that walks the code."""
    walk = path.endswith("/Proof.antt")
    source = path.endswith(".rt")
    skip = from_library(text)
    in_path = {i for m in re.finditer(r"Rattle\.[^\s{]*", text) for i in range(*m.span())}

    def in_comment(w):
        return names.get(w[0], w[0]) if w[0] not in GIVEN or HUMP.search(w[0]) else w[0]

    def one(m):
        t = m[0]
        if m.start() in in_path or t.startswith('"') or t in skip:
            return t
        if t.startswith("--") or source and t.startswith("//"):
            return re.sub(NAME, in_comment, t)
        behind_a_dot = m.start() and text[m.start() - 1] == "."
        if t in GIVEN and t != "buffer_after" and not HUMP.search(t) and (source or walk and behind_a_dot):
            return t
        return names.get(t, t)

    return (re.compile(r"//[^\n]*|" + TOKEN.pattern) if source else TOKEN).sub(one, text)


# A name of a definition or a lemma in a page stands between backquotes.
QUOTED = re.compile(r"`[^`\n]+`")


def main(argv):
    root = argv[0]
    names, antt, fields, declared, library = table(root)
    if "--list" in argv:
        for a, b in sorted(names.items()):
            print(a, b)
        meetings(root, names, antt)
        return
    for f in antt + files(root, "src/**/*.rt", "must-fail/*.edit"):
        old = read(f)
        new = respell(old, names, f if not f.endswith(".edit") else f + ".rt")
        if f.endswith(".rt"):
            new = CONSTANT.sub(plain_clause, new)
            new = new.replace("#[derive(Drop)]", "#[derive(Clone, Copy)]")
            if f.endswith(("/lib.rt", "/main.rt")) and "#![tactic(auto)]" not in new:
                head = re.match(r"(?://[^\n]*\n)*", new).end()
                new = new[:head] + "#![tactic(auto)]\n\n" + new[head:].lstrip("\n")
        if new != old:
            with open(f, "w", encoding="utf-8") as it:
                it.write(new)
    for f in glob.glob(os.path.join(root, "*.md")) + glob.glob(os.path.join(root, "docs", "*.md")) + glob.glob(os.path.join(root, "bench", "*.txt")):
        old = read(f)
        new = QUOTED.sub(lambda q: re.sub(NAME, lambda w: names.get(w[0].strip("`"), w[0].strip("`")) if w[0] not in GIVEN or HUMP.search(w[0]) else w[0], q[0][1:-1]).join("``"), old)
        if new != old:
            with open(f, "w", encoding="utf-8") as it:
                it.write(new)


main(sys.argv[1:])
