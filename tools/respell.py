#!/usr/bin/env python3
"""Spells this repository's own definitions and lemmas in snake case: `eachTwo` and `each-two` become `each_two`.

usage: tools/respell.py [--check]        at the top of the repository, once, right after port.py

Which names: those that a file of specs/ or of proofs/ (but for the folders of functions) declares, and the helper lemmas of a function's proof.
A name that Rattle makes from the code, an answer's name among them, stays. Where two names would fall together, a definition of specs/ gets the plain
spelling and the lemma `_lem` behind it. Pages name laws in code spans; those turn too. It goes by words and proves nothing: rt check decides.
"""

import collections
import os
import re
import sys

WORD = re.compile(r'[^\s(){}.;,@"«»`]+')
DECLARED = re.compile(r"^ *(?:(?:unfoldable|abbrev|pub|mutual) +)*([^\s(){}.;,@\"«»:]+)(?: \{[^{}\n]*\})* :(?= |$)(.*)")
USE = re.compile(r"^ *(?:pub )?use (\S+?)(?:\.\{(.*)\})?(?: as (\S+))?$")
MADE = re.compile(r" *(?:\{M : Type 1\} → )?(?:tie|goal|walk|statement)\b|.*→ (?:Need|need)-")
FIELD = re.compile(r"^ *(?:pub )?(?:ghost )?(\w+):(?!:)", re.M)
ITEM = re.compile(r"\b(?:const|static|struct|enum|type|trait|mod) (\w+)")


def lines_of(path):
    with open(path, encoding="utf-8") as f:
        return f.read()


def files(root, *endings):
    for folder, dirs, names in os.walk(root):
        dirs[:] = sorted(d for d in dirs if d not in ("out", ".git", "target"))
        for name in sorted(names):
            if name.endswith(endings):
                yield os.path.join(folder, name)


def of_function(path):
    return re.search(r"/proofs/[^/]+/", path) is not None


def wants(name):
    return "-" in name or re.search(r"[a-z0-9₀-₉'][A-Z]", name) is not None and not name[0].isupper()


def snake(name):
    if not name[0].isupper():
        name = re.sub(r"(?<=[a-z0-9₀-₉'])[A-Z]", lambda m: "_" + m[0].lower(), name)
    return name.replace("-", "_")


def imports(text, own_crates):
    """The names that a file brings in: of this repository, and of others."""
    own, other = set(), set()
    for line in text.splitlines():
        m = USE.match(line.removeprefix("ghost ").rstrip(";"))
        if not m:
            continue
        steps = m[1].split(".")
        to = own if steps[0] == "Rattle" and len(steps) > 1 and steps[1] in own_crates else other
        for item in (m[2] or "").split(","):
            item = item.strip()
            if item:
                to.add(item.split(" as ")[-1].strip())
    return own, other


def bare(text, rust):
    """The words of a file that stand for themselves: not behind a dot or before one, and of Rust only those of clauses."""
    if rust:
        text = "\n".join(m[0] for m in CODE.finditer(text) if not m[0].startswith("//"))
    text = re.sub(r"(?m)(?<!\S)--.*$", "", text)
    return set(re.findall(r'(?<![^\s(){};,@"«»`])[^\s(){}.;,@"«»`]+(?![^\s(){};,@"«»`])', text))


def main(argv):
    crates = sorted(c for c in os.listdir("crates") if os.path.isdir(os.path.join("crates", c)))
    texts = {p: lines_of(p) for p in files("crates", ".antt", ".rt")}
    declared, kind, local = collections.defaultdict(set), {}, collections.defaultdict(dict)
    for path, text in texts.items():
        if not path.endswith(".antt"):
            continue
        for line in text.splitlines():
            m = DECLARED.match(line)
            if not m or line.lstrip().startswith("--"):
                continue
            if of_function(path):
                local[path][m[1]] = bool(MADE.match(m[2]))
            else:
                declared[m[1]].add(path)
                if "/specs/" in path:
                    kind[m[1]] = "specs"
    taken = {n for t in texts.items() if t[0].endswith(".rt") for n in FIELD.findall(t[1]) + ITEM.findall(t[1])}
    scope = {p: bare(t, p.endswith(".rt")) for p, t in texts.items()}
    where = collections.defaultdict(set)
    for p, words in scope.items():
        for w in words:
            if w in declared:
                where[w].add(p)
    groups = collections.defaultdict(list)
    for name in declared:
        groups[snake(name)].append(name)
    table = {}
    for to, names in groups.items():
        names.sort(key=lambda n: (kind.get(n) != "specs", n != to, n))
        for i, name in enumerate(names):
            spelled = to if i == 0 else to + "_lem" * i
            if wants(name) or i:
                if kind.get(name) == "specs" and spelled in taken:
                    print(f"look: {name} as {spelled} is also a field or an item of src/")
                while any(spelled in scope[p] and spelled not in names and spelled not in table.values() for p in where[name]):
                    print(f"look: {name}: {spelled} stands in a file already, so {spelled}_lem")
                    spelled += "_lem"
                if spelled != name:
                    table[name] = spelled
    fallen = [n for n, k in collections.Counter(table.values()).items() if k > 1]
    if fallen:
        print("fall together: " + " ".join(fallen))
        return 1
    print(f"{len(table)} names, {sum(1 for t in table.values() if t.endswith('_lem'))} with _lem")
    changed = 0
    for path, text in sorted(texts.items()):
        own, other = imports(text, crates)
        here = {n: t for n, t in table.items() if n not in other}
        if of_function(path):
            here = {n: t for n, t in here.items() if n in own or n not in local[path]}
            here.update({n: snake(n) for n, made in local[path].items() if not made and wants(n) and not n.endswith("-spec") and n not in own and snake(n) not in scope[path]})
        new = turned(text, here, path.endswith(".rt"))
        if new != text:
            changed += 1
            if "--check" not in argv:
                with open(path, "w", encoding="utf-8") as f:
                    f.write(new)
    for path in list(files("crates", ".edit")):
        text = lines_of(path)
        new = turned(text, table, False)
        if new != text:
            changed += 1
            if "--check" not in argv:
                with open(path, "w", encoding="utf-8") as f:
                    f.write(new)
    for path in ["README.md", *files("docs", ".md"), "tests/laws-named", "tests/definitions"]:
        if not os.path.isfile(path):
            continue
        text = lines_of(path)
        new = re.sub(r"`([^`\n]+)`", lambda m: "`" + turned(m[1], table, False) + "`", text) if path.endswith(".md") else text
        if new != text:
            changed += 1
            if "--check" not in argv:
                with open(path, "w", encoding="utf-8") as f:
                    f.write(new)
    print(f"{changed} files")
    with open("tools/respelled.tsv", "w", encoding="utf-8") as f:
        f.writelines(f"{a}\t{b}\n" for a, b in sorted(table.items()))
    return 0


CODE = re.compile(r"ghost use[^;]*;|(?:requires|ensures|ghost)\*?(?: \w+)?:? \{(?:[^{}]|\{[^{}]*\})*\}|//[^\n]*")


def turned(text, table, rust):
    def word(m):
        w = m[0]
        if w not in table:
            return w
        before = text_here[: m.start()]
        if before.endswith("."):
            head = re.search(r"([^\s(){};,@\"«»`]+)\.$", before)
            last = head[1].split(".")[-1] if head else ""
            if not last[:1].isupper():
                return w
        return table[w]

    if not rust:
        text_here = text
        return WORD.sub(word, text)
    out, at = [], 0
    for m in CODE.finditer(text):
        text_here = m[0]
        out += [text[at : m.start()], WORD.sub(word, m[0])]
        at = m.end()
    return "".join(out) + text[at:]




raise SystemExit(main(sys.argv[1:]))
