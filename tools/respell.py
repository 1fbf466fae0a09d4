#!/usr/bin/env python3
"""Respells the names of this repository's own definitions and lemmas: words in snake case.

usage: python3 tools/respell.py [--list]    at the top of the repository, once, after port.py

`sameFirst` becomes `same_first`. A dash stays where it joins the names of two definitions, as in `member-union_rows`; elsewhere it becomes `_`.
A lemma that would take the name of a definition gets `_lem`. Types, modules, functions of src/, strings and what Rattle itself makes keep their names.
With --list it only prints the names, old and new.
"""

import os
import re
import sys

TOKEN = re.compile(r"[^\W\d][\w'\-?≢≤<>◌]*")
DEFINED = re.compile(r"^(\s*)(?:(?:abbrev|unfoldable)\s+)?(pub\s+)?(?:(?:data|record|module)\s+)?([^\s(){}:,;.=]+)(?:\s|$)")
PLAIN = re.compile(r"^[A-Za-z][A-Za-z0-9_'\-]*$")
# words of the library that lemmas are named for
LIBRARY = set("length append map take drop set get_or replicate paste slice keep and or not if cond flat_map zip_with sum reverse add sub mul compare eqb leb ltb".split())
KEYWORDS = set("use mod pub abbrev unfoldable unfolding data record module where let in elim as open rw simp omega search grind".split())
# names whose own new name is another's
OWN = {
    "agreesAt": "agree_at",
    "widthIs": "width_from",
    "worked-list": "worked_list_is",
    "lowest-row": "row_is_lowest",
    "never-eight": "no_eight",
}


def texts(*endings):
    for top in ("crates",):
        for folder, dirs, files in os.walk(top):
            dirs[:] = sorted(d for d in dirs if d not in ("out", ".git"))
            for f in sorted(files):
                if f.endswith(endings):
                    yield os.path.join(folder, f)


def read(p):
    with open(p, encoding="utf-8") as f:
        return f.read()


def walks(p):
    """A function's Proof.antt: most of its names are those of its goals."""
    return os.path.basename(p) == "Proof.antt"


def defined():
    """The names defined in specs/ and proofs/: name -> the files, and whether some file of specs/ defines it."""
    names, specs = {}, set()
    for p in texts(".antt"):
        if walks(p):
            continue
        for line in read(p).split("\n"):
            if line.lstrip().startswith("--"):
                continue
            m = DEFINED.match(line)
            if not m or m.group(3) in KEYWORDS or not PLAIN.match(m.group(3)):
                continue
            rest = line[m.end(3):].lstrip()
            typed = rest.startswith(":") or rest.startswith("(") and " : " in line
            if not typed and not (m.group(2) and not m.group(1)):
                continue
            names.setdefault(m.group(3), []).append(p)
            if "/specs/" in p:
                specs.add(m.group(3))
    return names, specs


def borrowed():
    """The names that files import from the library: these stay."""
    own = {os.path.basename(d) for d in os.listdir("crates")}
    found = set()
    for p in texts(".antt", ".rt"):
        for path, names in re.findall(r"^\s*(?:ghost )?use (\S+?)\.\{([^}]*)\}", read(p), re.M):
            parts = path.split(".")
            if not (parts[0] == "Rattle" and len(parts) > 1 and parts[1] in own):
                found |= {n.split(" as ")[0].strip() for n in names.split(",")}
    return found


def snake(word):
    return re.sub(r"(?<=[a-z0-9])([A-Z])", lambda m: "_" + m.group(1).lower(), word)


def new_name(name, spoken):
    if name[0].isupper() and "-" not in name:
        return name
    parts = [p if p[:1].isupper() else snake(p) for p in name.split("-")]
    out = parts[0]
    for i in range(1, len(parts)):
        joins = parts[i - 1] in spoken and parts[i] in spoken
        out += ("-" if joins else "_") + parts[i]
    return out


def table():
    names, specs = defined()
    spoken = {snake(n) for n in specs if "-" not in n and len(n) > 2} | LIBRARY
    to = {}
    stay = borrowed()
    for n in names:
        if n in stay:
            continue
        m = OWN.get(n) or new_name(n, spoken)
        if m != n:
            to[n] = m
    # names that fall together: a definition of specs/ has the name, and a lemma gives way
    again = {}
    for n in names:
        again.setdefault(to.get(n, n), []).append(n)
    for m, olds in again.items():
        olds.sort(key=lambda n: (n not in specs, "-" in n, n != m, n))
        for n in olds[1:]:
            to[n] = m + "_lem"
    return to, names


def turn(text, to, fields, prose=False, modules=()):
    def one(m):
        w = m.group(0)
        if w not in to or (prose and "-" in w):
            return w
        if m.start() and text[m.start() - 1] == "." and w not in fields:
            before = re.search(r"[\w'.\-]*$", text[: m.start() - 1]).group(0)
            if before not in modules and not before.startswith("Rattle."):
                return w
        return to[w]

    return TOKEN.sub(one, text)


def aliases(text):
    return {a for a in re.findall(r"^\s*(?:ghost )?use \S+ as ([\w'\-]+);?$", text, re.M) if a not in ("tie", "reads", "lts")}


def turn_antt(text, to, fields):
    out = []
    modules = aliases(text)
    for line in text.split("\n"):
        code, dash, note = line.partition("--") if re.match(r"^\s*--", line) or " -- " in line else (line, "", "")
        out.append(turn(code, to, fields, False, modules) + dash + turn(note, to, fields, prose=True))
    return "\n".join(out)


def record_fields():
    found = set()
    for p in texts(".antt"):
        if walks(p):
            continue
        inside = False
        for line in read(p).split("\n"):
            if re.match(r"^(pub )?record\b", line):
                inside = True
            elif line and not line[0].isspace():
                inside = False
            elif inside:
                m = re.match(r"^\s+(?:pub\s+)?([^\s(){}:,;.=]+)\s+:", line)
                if m:
                    found.add(m.group(1))
    return found


def main():
    to, names = table()
    fields = record_fields()
    if "--list" in sys.argv:
        for n in sorted(to):
            print(n, to[n])
        return
    changed = 0
    for p in texts(".antt", ".rt", ".edit"):
        old = read(p)
        if p.endswith(".rt"):
            new = "\n".join(turn_rt(old, to, fields))
        elif p.endswith(".edit"):
            new = "\n".join(turn_edit(old, to, fields))
        else:
            new = turn_antt(old, to, fields)
        if new != old:
            changed += 1
            with open(p, "w", encoding="utf-8") as f:
                f.write(new)
    print(f"respelled: {len(to)} names in {changed} files")


def turn_rt(text, to, fields):
    """Ghost imports, clauses and comments; code and strings stay."""
    depth = 0
    modules = aliases(text)
    for line in text.split("\n"):
        ghost = re.match(r"^\s*ghost\b", line) or re.match(r"^\s*(requires|ensures)\b", line)
        if line.lstrip().startswith("//"):
            yield turn(line, to, fields, prose=True)
        elif ghost or depth:
            yield turn(line, to, fields, False, modules)
            depth += line.count("{") - line.count("}")
        else:
            yield line


def turn_edit(text, to, fields):
    rust = ".rt" in text.split("file: ", 1)[1].split("\n", 1)[0]
    for line in text.split("\n"):
        if line.startswith(("old: ", "new: ")):
            head, rest = line[:5], line[5:]
            clause = re.match(r"^\s*(ghost|requires|ensures)\b", rest) or not rust
            yield head + (turn(rest, to, fields) if clause else rest)
        else:
            yield line


if __name__ == "__main__":
    main()
