#!/usr/bin/env python3
"""Spells the repository's definitions and lemmas as today's Rattle does: words in snake case, a dash between two names alone.

usage: tools/port/respell.py [--list]      at the top of the repository, once, after port.py of the kit
       --list prints each old name with its new one, and names that would fall together, and writes nothing

What is respelled: names that specs/ and the lemma files of proofs/ declare, wherever crates/ cites them, in clauses, definitions and
proofs, and between backticks in comments and documents (but for docs/LANDINGS.md, whose notes are of their time). Names of Rust items,
types and modules stay as they are. A lemma that would get the name of a definition gets `_lem`.
"""

import os
import re
import sys

TOP = os.path.dirname(os.path.dirname(os.path.dirname(os.path.realpath(__file__))))
if not os.path.isdir(os.path.join(TOP, "crates")):
    TOP = os.getcwd()

# names of std that a lemma may speak of: a dash stands between two names
STD = set("length take drop map filter set get get_or replicate append reverse sum pow add sub mul div rem neg min max suc".split())
WORDS = {"use", "pub", "module", "mod", "where", "unfolding", "abbrev", "unfoldable", "data", "record", "let", "in", "open", "elim", "λ"}
DECLARED = re.compile(r"\s*(?:(?:abbrev|unfoldable|opaque|pub) )*(?:(record|data) )?([^\s(){}.;,:]+)\s*(?:[({].*)?:(?!=)")
NAME = re.compile(r"[^\s(){}\[\];,.:\"`⌜⌝⟨⟩|]+")


def files(suffixes):
    for folder, dirs, names in os.walk(os.path.join(TOP, "crates")):
        dirs[:] = sorted(d for d in dirs if d not in ("out", ".git"))
        for n in sorted(names):
            if n.endswith(suffixes):
                yield os.path.join(folder, n)


def read(p):
    with open(p, encoding="utf-8") as f:
        return f.read()


def snake(w):
    """clampedOf: clamped_of; zero64 stays; addQ: add_q."""
    return re.sub(r"(?<=[a-z0-9])([A-Z])", lambda m: "_" + m[1].lower(), w)


def declared():
    own, lemmas = set(), set()
    for p in files((".antt",)):
        if os.path.basename(p) in ("Proof.antt", "Lib.antt"):
            continue
        for line in read(p).splitlines():
            m = DECLARED.match(line)
            if m and m[2] not in WORDS and not line.lstrip().startswith("--"):
                (own if "/specs/" in p else lemmas).add(m[2])
    return own, lemmas


def joined(name, known):
    """A lemma's name: the longest known names are kept together, and a dash stands between two of them."""
    words = [snake(w) for w in name.split("-")]
    parts = []
    i = 0
    while i < len(words):
        for j in range(len(words), i, -1):
            whole = "_".join(words[i:j])
            if whole in known:
                parts.append((whole, True))
                break
        else:
            j = i + 1
            whole = words[i]
            parts.append((whole, whole[:1].isupper()))
        i = j
    out = parts[0][0]
    for (a, ka), (b, kb) in zip(parts, parts[1:]):
        out += ("-" if ka and kb and (a in STD or b in STD) or a[:1].isupper() else "_") + b
    return out


def renames():
    own, lemmas = declared()
    lemmas -= own
    known = STD | {snake(n) for n in own if "-" not in n and n[:1].islower() and len(n) > 1}
    to = {n: joined(n, known) if "-" in n else snake(n) for n in own if "-" in n or not n[:1].isupper()}
    taken = set(to.values())
    # names beside a lemma in a file, as those that it imports from std
    beside = {}
    for p in files((".antt",)):
        if os.path.basename(p) != "Proof.antt":
            here = set(NAME.findall("\n".join(code_part(l, "--")[0] for l in read(p).split("\n"))))
            for n in here & lemmas:
                beside.setdefault(n, set()).update(here)
    for n in sorted(lemmas, key=lambda n: ("-" in n, n)):
        if n[:1].isupper() and "-" not in n:
            continue
        new = joined(n, known) if "-" in n else snake(n)
        # a lemma that would have the name of a definition
        if new in taken or new != n and new in beside.get(n, ()):
            new += "_lem"
        elif "-" not in n and n != new:
            taken.add(new)
        to[n] = new
    return {a: b for a, b in to.items() if a != b}


def code_part(line, comment):
    """The line up to a comment, and the comment."""
    i = line.find(comment)
    return (line, "") if i < 0 else (line[:i], line[i:])


def in_ticks(text, to):
    return re.sub(r"`([^`]+)`", lambda m: "`" + NAME.sub(lambda k: to.get(k[0], k[0]), m[1]) + "`", text)


def camel_only(text, to):
    return NAME.sub(lambda k: to[k[0]] if k[0] in to and "-" not in k[0] else k[0], text)


def respelled(p, text, to):
    out = []
    ghost = False
    depth = 0
    for line in text.split("\n"):
        if p.endswith(".antt"):
            a, b = code_part(line, "--")
            out.append(NAME.sub(lambda k: to.get(k[0], k[0]), a) + camel_only(in_ticks(b, to), to))
        else:
            a, b = code_part(line, "//")
            s = a.lstrip()
            if re.match(r"(ghost |requires|ensures)", s):
                ghost = True
            if ghost:
                a = NAME.sub(lambda k: to.get(k[0], k[0]), a)
                depth += a.count("{") - a.count("}")
                if depth == 0:
                    ghost = False
            out.append(a + camel_only(in_ticks(b, to), to))
    return "\n".join(out)


def together(p, text, to):
    """Names of one file that fall together."""
    seen = {}
    bad = []
    for n in set(NAME.findall(text)):
        seen.setdefault(to.get(n, n), set()).add(n)
    for new, olds in seen.items():
        if len(olds) > 1:
            bad.append((new, sorted(olds)))
    return bad


def main(argv):
    to = renames()
    if argv == ["--list"]:
        for a in sorted(to):
            print(a, to[a])
        back = {}
        for a, b in to.items():
            back.setdefault(b, []).append(a)
        for b, a in back.items():
            if len(a) > 1:
                print("TOGETHER", b, a)
        for p in files((".antt",)):
            if os.path.basename(p) == "Proof.antt":
                continue
            t = "\n".join(code_part(l, "--")[0] for l in read(p).split("\n"))
            for new, olds in together(p, t, to):
                print("IN ONE FILE", os.path.relpath(p, TOP), new, olds)
        for p in files((".rt",)):
            t = "\n".join(code_part(l, "//")[0] for l in read(p).split("\n"))
            params = set(re.findall(r"\b(\w+): ", t))
            fns = set(re.findall(r"\bfn (\w+)", t))
            for n in set(NAME.findall(t)):
                if n in to and to[n] in params:
                    print("PARAMETER", os.path.relpath(p, TOP), n, to[n])
        return 0
    if argv:
        print(__doc__)
        return 2
    for p in list(files((".antt", ".rt"))):
        t = read(p)
        new = respelled(p, t, to)
        if new != t:
            with open(p, "w", encoding="utf-8") as f:
                f.write(new)
    for d in ("README.md", "docs"):
        d = os.path.join(TOP, d)
        for p in [d] if os.path.isfile(d) else [os.path.join(d, n) for n in sorted(os.listdir(d)) if n.endswith(".md") and n != "LANDINGS.md"]:
            t = read(p)
            new = in_ticks(t, to)
            if new != t:
                with open(p, "w", encoding="utf-8") as f:
                    f.write(new)
    return 0


if __name__ == "__main__":
    raise SystemExit(main(sys.argv[1:]))
