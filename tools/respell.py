#!/usr/bin/env python3
"""Spells the repository's own names of specs/ and proofs/ as today's Rattle spells names: words in snake case, types and modules in camel case.

usage: tools/respell.py LANDED    at the top of the repository, once, right after the kit's port/port.py; LANDED is a checkout of the commit before it (docs/PORT.md)

A name that a file of specs/ or a law file of proofs/ declares gets `_` for each `-` and for each inner capital, unless it
begins with a capital letter. Names of the library and those that the check makes (`loop-i`, `returns-2`) stay, and so do all
names of src/. It then gives the wrong programs of must-fail/ and the pages of docs/ and README.md both the new names and
those that port.py gave. It says which names would fall together, and changes nothing then.
"""
import glob
import os
import re
import sys

WORD = re.compile(r"[A-Za-z0-9_'\u2032\u0370-\u03ff-]*[A-Za-z][A-Za-z0-9_'\u2032\u0370-\u03ff-]*")
DECLARES = re.compile(r"^\s*(?:(?:pub|abbrev|unfoldable)\s+)*([A-Za-z][A-Za-z0-9_'\u2032-]*(?:\s+[A-Za-z][A-Za-z0-9_'\u2032-]*)*)\s*:(?!:)(?:\s|$)")
MADE = re.compile(r"^(Need|need|returns|loop|if|while|match|else|in_)(-|$)|-requires|-preserved|-result$|^cast-|^index-|^overflow")
# where the rule would give two names of one file the same spelling
APART = {
    "slot-of": "the_slot",
    "core-of": "the_core",
    "can-write": "can_write_all",
    "tick-after": "tick_after_is",
    "in-period": "in_period_is",
}
APART_IN = {("crates/checker/proofs/ScanLaws.antt", "counter_at"): "counter_there"}
LEM = set()
CRATES = [line.split(":")[0] for line in open("crates.txt") if ":" in line]


def spelled(name):
    """The name in snake case; a name with a capital at its head stays a type's, its dashes too."""
    if name in APART:
        return APART[name]
    if name in LEM:
        return snake(name) + "_lem"
    return snake(name)


def snake(name):
    if not name[0].islower():
        return name
    out = re.sub(r"(?<=[a-z0-9'])-(?=[A-Za-z0-9])", "_", name)
    out = re.sub(r"(?<=[A-Z])-(?=[A-Za-z0-9])", "_", out)
    return re.sub(r"(?<=[a-z0-9])([A-Z])(?![A-Z])", lambda m: "_" + m.group(1).lower(), out)


def read(path):
    with open(path, encoding="utf-8") as f:
        return f.read()


def declared(text):
    """The names that a file declares, in order: definitions, laws, fields, constructors, names under `where` and of `let`."""
    names = []
    for line in text.split("\n"):
        if line.lstrip().startswith(("--", "//", "use ", "ghost use")):
            continue
        m = DECLARES.match(line)
        if m:
            names += m.group(1).split()
        names += re.findall(r"\blet ([A-Za-z][A-Za-z0-9_'\u2032-]*)\s*[:=]", line)
    return names


def imported(text, own):
    """The names that a file takes from this repository's files, and those it gives with `as`."""
    names = set()
    for m in re.finditer(r"^\s*(?:ghost )?use (Rattle[.\u00b7](\w+)[^{;\n]*?)(?:\.\{([^}]*)\}|( as [^;\n]+))?;?$", text, re.M):
        if m.group(2) not in CRATES:
            continue
        if m.group(3):
            for part in m.group(3).split(","):
                for w in part.strip().split(" as "):
                    names.add(w.strip())
        if m.group(4):
            names.add(m.group(4)[4:].strip())
    return names


def law_files(root="."):
    return sorted(glob.glob(f"{root}/crates/*/specs/*.antt") + glob.glob(f"{root}/crates/*/proofs/*.antt"))


def main():
    landed = sys.argv[1]
    own, fields = set(), set()
    per = {}
    for path in law_files():
        text = read(path)
        per[path] = set(declared(text))
        own |= per[path]
        inside = False
        for line in text.split("\n"):
            if re.match(r"^(abbrev )?(pub )?(abbrev )?(record|data) ", line):
                inside = True
            elif line and not line[0].isspace():
                inside = False
            if inside:
                m = DECLARES.match(line)
                if m and line[0].isspace():
                    fields |= set(m.group(1).split())
    # a law that would have its definition's name
    defs, laws = set(), set()
    for path in law_files():
        if "/specs/" in path:
            defs |= {n for line in read(path).split("\n") if line[:1].strip() for n in declared(line)}
        else:
            laws |= set(declared(read(path)))
    LEM.update(n for n in laws - defs if snake(n) in {snake(d) for d in defs} and n not in APART and snake(n) != n)
    # what port.py gave other names: the declarations of a file stand in the same order before and after it
    given = {}
    for path in law_files():
        before = os.path.join(landed, path)
        a, b = declared(read(before)), declared(read(path))
        if len(a) != len(b):
            sys.exit(f"respell: {path} declares {len(b)} names, and {len(a)} before port.py")
        for x, y in zip(a, b):
            if x != y:
                given[x] = y
    texts, clash = {}, []
    files = law_files() + sorted(glob.glob("crates/*/proofs/*/**/*.antt", recursive=True)) + sorted(glob.glob("crates/*/src/*.rt"))
    for path in files:
        text = read(path)
        names = per.get(path, set()) | {n for n in imported(text, own)} | fields
        names = {n for n in names if n in own or n in fields or " as " + n in text}
        turn = {n: spelled(n) for n in names if spelled(n) != n and not MADE.search(n)}
        turn.update({n: new for (p, n), new in APART_IN.items() if p == path[-len(p):]})
        # a function's contract, brought in beside the definition of its name
        turn.update({n: spelled(n) + "_call" for n in re.findall(r"^use Rattle\.\w+\.specs\.contracts\.\w+ as ([\w-]+)$", text, re.M) if re.search("[_-]", n)})
        if path.endswith(".rt"):
            code = "\n".join(l for l in text.split("\n") if not re.match(r"^\s*(ghost use|requires|ensures|//)", l))
            there = set(re.findall(r"[A-Za-z_][A-Za-z0-9_]*", code))
            for n in sorted(turn):
                if turn[n] in there and re.search(r"(?<![A-Za-z0-9_'-])" + re.escape(n) + r"(?![A-Za-z0-9_'-])", text):
                    print(f"respell: {path}: {turn[n]} is in the code too")
        else:
            there = set(WORD.findall(re.sub(r"--.*", "", re.sub(r"^use Rattle\.[^{\n]*?(?=\.\{| as |$)", "", text, flags=re.M))))
            there -= {m.group(1) for m in re.finditer(r"\.([\w'-]+)", text)} if path.count("/") > 3 else set()
            for n in sorted(turn):
                if n in there and turn[n] in there - set(turn):
                    clash.append(f"{path}: {n} and {turn[n]}")

        def put(m):
            return turn.get(m.group(0), m.group(0))

        lines = []
        for line in text.split("\n"):
            if path.endswith(".rt") and not re.match(r"^\s*(ghost use|requires|ensures|ghost )", line):
                lines.append(line)
            else:
                path_end = re.match(r"(?:ghost )?use [^{\s]*(?=\.\{| as )|(?:ghost )?use [^{\s]*$", line)
                head = path_end.group(0) if path_end else ""
                lines.append(head + WORD.sub(put, line[len(head):]))
        texts[path] = "\n".join(lines)
    for path in law_files():
        seen = {}
        for n in per[path]:
            seen.setdefault(spelled(n), set()).add(n)
        clash += [f"{path} declares {' and '.join(sorted(v))}" for v in seen.values() if len(v) > 1]
    if clash:
        print("\n".join("respell: fall together: " + c for c in clash))
        sys.exit(1)
    for path, text in texts.items():
        if text != read(path):
            with open(path, "w", encoding="utf-8") as f:
                f.write(text)
    # wrong programs and pages: the names of LANDED in the new spelling
    whole = {n: spelled(given.get(n, n)) for n in set(own) | set(given)}
    whole.update({x: spelled(y) for x, y in given.items()})
    whole = {x: y for x, y in whole.items() if x != y and not MADE.search(x)}

    def turned(text):
        text = re.sub(r"(?<=[\w)]) \.(?=[a-z0-9])", ".", text)
        text = re.sub(r"(?<!\w)\((\w\.\w+)\)", r"\1", text)
        return WORD.sub(lambda m: whole.get(m.group(0), m.group(0)), text).replace("\u2032", "'")

    for path in sorted(glob.glob("crates/*/must-fail/*.edit")):
        text = read(path)
        out, file = [], ""
        for line in text.split("\n"):
            if line.startswith("file: "):
                file = line[6:]
            if line.startswith(("old: ", "new: ")) and file.startswith("specs/"):
                line = line[:5] + turned(line[5:])
            out.append(line)
        if "\n".join(out) != text:
            with open(path, "w", encoding="utf-8") as f:
                f.write("\n".join(out))
    for path in ["README.md"] + sorted(p for p in glob.glob("docs/*.md") if not re.search("LANDINGS|PORT", p)):
        text = read(path)
        new = re.sub(r"(?<!`)`([^`\n]+)`(?!`)", lambda m: "`" + WORD.sub(lambda w: whole.get(w.group(0), w.group(0)), m.group(1)) + "`", text)
        if new != text:
            with open(path, "w", encoding="utf-8") as f:
                f.write(new)


main()
