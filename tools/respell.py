#!/usr/bin/env python3
"""Brings this repository's own definitions and lemmas to today's spelling: snake case, with no dash and no hump.

usage: tools/respell.py KIT     at the top, once, right after the toolchain's port script; KIT is the toolchain's folder

What turns: each name that a file of specs/ or proofs/ declares, binds or cites, where it has a hump or a dash and the
toolchain's library has no such name; of the library's names none. A lemma that would fall together with the definition
that it is about gets _lem. In the sources only clauses, ghost items and comments turn, in the documents only code spans.
A function's own proof (Proof.antt) keeps the names that it gives its answers.
"""
import collections
import os
import re
import sys

NAME = r"[a-z][A-Za-z0-9₀-₉ₐ-ₜ'_ℕ⁺]*(?:-[A-Za-z0-9₀-₉ₐ-ₜ'_ℕ≡⁺]+)*"
WORD = re.compile(r"(?<![^\s(){}.;,@\"«»\[\]|`:])" + NAME + r"(?![^\s(){}.;,@\"«»\[\]|`:])")
HUMP = re.compile(r"(?<=[a-z0-9])[A-Z]")
DECLARED = re.compile(r"(?m)^ *(?:(?:abbrev|unfoldable|pub|record|data|opaque) +)*(" + NAME + r")(?: *[({][^\n]*?[)}])* *:(?= |\n)")
QUIET = re.compile(r'"(?:[^"\\\n]|\\.)*"|(?<![^\s(){}.;,@"«»])--[^\n]*|\{-.*?-\}', re.S)


def files(root, *endings):
    for folder, dirs, names in os.walk(root):
        dirs[:] = sorted(d for d in dirs if d not in ("out", ".git", "target"))
        for n in sorted(names):
            if n.endswith(endings):
                yield os.path.join(folder, n)


def read(path):
    with open(path, encoding="utf-8") as f:
        return f.read()


def plain(name):
    return HUMP.sub(lambda m: "_" + m[0].lower(), name).replace("-", "_")


def turns(name):
    return "-" in name or HUMP.search(name)


def code(text):
    return QUIET.sub(lambda m: " " * len(m[0]), text)


def main(kit):
    library = set()
    for p in files(os.path.join(kit, "rattle"), ".antt"):
        if "/examples/" not in p:
            library.update(WORD.findall(code(read(p))))
    texts = {p: read(p) for p in files("crates", ".antt")}
    lemmas = {p: t for p, t in texts.items() if not p.endswith("/Proof.antt")}
    declared = collections.Counter()
    where = collections.defaultdict(set)
    for p, t in lemmas.items():
        for n in set(DECLARED.findall(code(t))):
            declared[n] += 1
            where[n].add(p)
    rust = set()
    for p in files("crates", ".rt"):
        rust.update(re.findall(r"\b[a-z]\w*\b", read(p)))
    words = set(declared)
    for t in lemmas.values():
        words.update(WORD.findall(code(t)))
    table = {}
    for n in sorted(words):
        if turns(n) and (n in declared or n not in library or plain(n) in rust):
            table[n] = plain(n)
    # names that fall together: the one with a hump is the definition; the one with a dash, or that the port turned, the lemma
    taken = collections.defaultdict(set)
    for n in words:
        taken[table.get(n, n)].add(n)
    for new, old in sorted(taken.items()):
        if len(old) < 2 or not any(n in declared for n in old):
            continue
        defs = [n for n in old if HUMP.search(n) and "-" not in n]
        others = [n for n in old if n not in defs]
        print("together:", new, sorted(old))
        if defs:
            for n in others:
                if n in declared:
                    table[n] = new + "_lem"
        else:
            dashed = [n for n in old if "-" in n]
            plain_ones = [n for n in old if n not in dashed]
            if plain_ones:
                for n in dashed:
                    table[n] = new + "_lem"

    from_library = re.compile(r"(?m)^\s*(?:pub )?use (?!Rattle\.(?:" + "|".join(sorted(os.listdir("crates"))) + r")\b)[^\n{]*(?:\{([^}]*)\})?")

    def turn(text, keep):
        return WORD.sub(lambda m: m[0] if m[0] in keep else table.get(m[0], m[0]), text)

    def spans(text, keep):
        return re.sub(r"`[^`\n]*`", lambda m: turn(m[0], keep), re.sub(WORD, lambda m: table[m[0]] if m[0] in table and HUMP.search(m[0]) and m[0] not in keep else m[0], text))

    count = 0
    for p, t in texts.items():
        keep = set()
        for m in from_library.finditer(t):
            keep.update(w for item in (m[1] or "").split(",") for w in item.split())
        if p.endswith("/Proof.antt"):
            keep.update(n for n in DECLARED.findall(code(t)))
            keep -= {n for n in keep if HUMP.search(n) and "-" not in n and n in declared}
        out, at = [], 0
        for m in QUIET.finditer(t):
            out += [turn(t[at : m.start()], keep), m[0] if m[0].startswith('"') else spans(m[0], keep)]
            at = m.end()
        new = "".join(out) + turn(t[at:], keep)
        # a name that the file imports under its own spelling
        if new != t:
            count += 1
            with open(p, "w", encoding="utf-8") as f:
                f.write(new)
    clause = re.compile(r"(?:requires|ensures)\s*\*?\s*(?:\w+\s*)?\{|ghost\b[^;{]*\{?|//[^\n]*", re.S)
    for p in files("crates", ".rt"):
        t = read(p)
        out, at = [], 0
        for m in clause.finditer(t):
            if m.start() < at:
                continue
            end = m.end()
            if m[0].startswith("//"):
                out += [t[at : m.start()], spans(m[0], set())]
                at = end
                continue
            if m[0].endswith("{"):
                depth = 1
                while depth and end < len(t):
                    depth += (t[end] == "{") - (t[end] == "}")
                    end += 1
            out += [t[at : m.start()], turn(t[m.start() : end], set())]
            at = end
        new = "".join(out) + t[at:]
        if new != t:
            count += 1
            with open(p, "w", encoding="utf-8") as f:
                f.write(new)
    for p in list(files("crates", ".edit")):
        t = read(p)
        new = "\n".join(spans(l, set()) if not re.match(r"(old|new):", l) else turn(l, set()) for l in t.split("\n"))
        if new != t:
            count += 1
            with open(p, "w", encoding="utf-8") as f:
                f.write(new)
    documents = [p for p in files("docs", ".md")] + ["README.md"] + [p for p in files("docs", "check", "delivery") if not p.endswith(".md")] + list(files("embed", ".h", ".rs", ".c")) + list(files("compare", ".rs")) + list(files("tests", ".rs", ".py"))
    for p in documents:
        if os.path.islink(p):
            continue
        t = read(p)
        new = spans(t, set()) if p.endswith(".md") else re.sub(r"`[^`\n]*`", lambda m: turn(m[0], set()), t)
        if new != t:
            count += 1
            with open(p, "w", encoding="utf-8") as f:
                f.write(new)
    print(f"{len(table)} names, {count} files")
    if os.environ.get("RESPELL_TABLE"):
        with open(os.environ["RESPELL_TABLE"], "w") as f:
            f.writelines(f"{a}\t{b}\n" for a, b in sorted(table.items()))


if __name__ == "__main__":
    if len(sys.argv) != 2 or not os.path.isdir("crates"):
        sys.exit(__doc__)
    main(sys.argv[1])
