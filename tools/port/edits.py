#!/usr/bin/env python3
"""Turns the edits of crates/*/must-fail/ to today's spelling, and says which do not apply.

usage: tools/port/edits.py [NAME..]           at the top of the repository: turns the edits of all crates, or of these
       tools/port/edits.py --check [NAME..]   writes nothing: says of each edit whether all its pairs apply to today's file, and counts those that do not
       tools/port/edits.py --old [NAME..]     writes nothing: prints beside each pair today's line, the line as the edit makes it, and both as they were at OLD

An edit has a line 'file: PATH' and pairs of lines 'old: TEXT' and 'new: TEXT'. Each old TEXT stands exactly once in that file, as the pairs before it made it.

What is turned, in edits of .antt files whose old text no longer stands: names to snake case where crates/ has the name so today; `x .f` to `x.f`, `g x .f` to
`(g x).f`, with no brackets round a projection; `eqb a b` to `a == b`, `leb` to `nat_le` and `ltb` to `nat_lt` where the file has these and not those. A text
is turned only if its old text then stands exactly once; today's layout of that text is taken. Import lines, and what else is left, is said and done by hand.
An edit that applies and has nothing of the older spelling is left as it is, so a second run changes nothing.
"""

import os
import re
import subprocess
import sys

TOP = os.path.dirname(os.path.dirname(os.path.dirname(os.path.realpath(__file__))))
OLD = "48c3236"  # the last commit in the older spelling

BREAKS = set("= ≡ → × ∷ ++ + - * / % < ≤ && || ; : , λ == ^".split())
TOKEN = re.compile(r"[(){}\[\],;]|[^\s(){}\[\],;]+")
NAME = re.compile(r"[^\s(){}\[\];,.:\"`⌜⌝⟨⟩|]+")
WORDS = {"eqb": "==", "leb": "nat_le", "ltb": "nat_lt"}


# ---- files

def read(p):
    with open(p, encoding="utf-8") as f:
        return f.read()


def write(p, text):
    with open(p, "w", encoding="utf-8") as f:
        f.write(text)


def folder_files(folder, suffixes):
    for at, dirs, names in os.walk(folder):
        dirs[:] = sorted(d for d in dirs if d not in ("out", ".git"))
        for n in sorted(names):
            if n.endswith(suffixes):
                yield os.path.join(at, n)


def edits(names):
    crates = os.path.join(TOP, "crates")
    for c in sorted(os.listdir(crates)):
        if names and c not in names:
            continue
        yield from folder_files(os.path.join(crates, c, "must-fail"), (".edit",))


def parsed(path):
    """The file that an edit is about and its pairs."""
    about, pairs = None, []
    for line in read(path).split("\n"):
        if line.startswith("file: "):
            about = line[6:]
        elif line.startswith("old: "):
            pairs.append([line[5:], None])
        elif line.startswith("new:") and pairs:
            pairs[-1][1] = line[5:]
    return about, pairs


def target(path, about):
    return os.path.join(os.path.dirname(os.path.dirname(path)), about)


def fault(path):
    """Why an edit does not apply to today's file, or None."""
    about, pairs = parsed(path)
    if not about or not pairs or any(n is None for _, n in pairs):
        return "no file, no pair, or an old text with no new one"
    if not os.path.isfile(target(path, about)):
        return f"no file {about}"
    text = was = read(target(path, about))
    for i, (old, new) in enumerate(pairs, 1):
        if text.count(old) != 1:
            return f"pair {i}: old text stands {text.count(old)} times in {about}: {old}"
        if old == new:
            return f"pair {i} changes nothing"
        text = text.replace(old, new)
    return "it changes nothing" if text == was else None


# ---- the spelling

def snake(word):
    return re.sub(r"(?<=[a-z0-9])([A-Z])", lambda m: "_" + m[1].lower(), word)


def today():
    """Every name that stands in crates/ today, and those of edits are not among them."""
    names = set()
    for p in folder_files(os.path.join(TOP, "crates"), (".antt", ".rt")):
        names.update(NAME.findall(read(p)))
    return names


def renamed(word, known):
    """A name as it is spelled today: itself, unless only its snake form stands in crates/."""
    m = re.fullmatch(r"(\.?)([^.]+)(\.?)", word)
    if not m or m[2] in known:
        return word
    for new in (snake(m[2]), snake(m[2]).replace("-", "_")):
        if new in known:
            return m[1] + new + m[3]
    return word


def tree(tokens, i, until):
    """Tokens with brackets as lists [open, items, close]; a bracket with no partner stays a token."""
    out = []
    while i < len(tokens):
        t = tokens[i]
        if t in "({[":
            inside, j = tree(tokens, i + 1, {"(": ")", "{": "}", "[": "]"}[t])
            if j is None:
                out.append(t)
            else:
                out.append([t, inside, tokens[j]])
                i = j
        elif t == until:
            return out, i
        else:
            out.append(t)
        i += 1
    return (out, None) if until else (out, i)


def parse(text):
    return tree(TOKEN.findall(text), 0, None)[0]


def atom(s):
    """One word, with projections or without, or a bracket with projections."""
    if re.fullmatch(r"[^\s(){}\[\],;]+", s):
        return "." in s
    depth = 0
    for i, ch in enumerate(s):
        depth += ch in "([{"
        depth -= ch in ")]}"
        if depth == 0 and i < len(s) - 1:
            return s[0] == "(" and re.fullmatch(r"(\.[\w']+)+", s[i + 1:]) is not None
    return False


def segment(parts):
    """An application: its projections are written tight."""
    i = next((k for k, p in enumerate(parts) if re.fullmatch(r"\.[\w'-]+", p)), None)
    if i is None:
        return parts
    j = i
    while j < len(parts) and re.fullmatch(r"\.[\w'-]+", parts[j]):
        j += 1
    if i == 0:
        return ["".join(parts[:j])] + segment(parts[j:])
    head = parts[0] if i == 1 else "(" + " ".join(parts[:i]) + ")"
    return segment([head + "".join(parts[i:j])] + parts[j:])


def spelled(items, swaps):
    out, run = [], []

    def flush():
        parts = segment(run)
        if len(parts) == 3 and parts[0] == "eqb" and "eqb" in swaps:
            parts = [parts[1], "==", parts[2]]
        out.extend(swaps[p] if p in swaps and p != "eqb" else p for p in parts)
        run.clear()

    for it in items:
        if isinstance(it, list):
            inside = spelled(it[1], swaps)
            if it[0] == "(" and atom(inside):
                run.append(inside)
            elif it[0] == "{":
                run.append("{ " + inside + " }" if inside else "{}")
            else:
                run.append(it[0] + inside + it[2])
        elif it in BREAKS or it in ("(", ")", "{", "}", "[", "]") or (it.endswith(".") and len(it) > 1):
            flush()
            out.append(it)
        else:
            run.append(it)
    flush()
    return " ".join(out)


def turned(text, known, file):
    """A text in today's spelling."""
    swaps = {a: b for a, b in WORDS.items() if not re.search(rf"\b{a}\b", file) and (b in file)}
    words = re.split(r"([^\s(){}\[\],;]+)", text)
    text = "".join(renamed(w, known) if i % 2 else w for i, w in enumerate(words))
    lead = text[: len(text) - len(text.lstrip())]
    s = spelled(parse(text), swaps)
    s = re.sub(r" ([,;)])", r"\1", s).replace("( ", "(")
    return lead + (s if " }" in text else s.replace(" }", "}"))


def found(text, file):
    """Where this text stands in the file, white space aside, if it does exactly once and on one line: as the file has it."""
    if file.count(text) == 1:
        return text
    parts = [re.escape(p) for p in TOKEN.findall(text)]
    hits = [m[0] for m in re.finditer(r"[ ]*".join(parts), file)]
    return hits[0] if len(hits) == 1 and file.count(hits[0]) == 1 else None


def turn(path, known):
    """What is left of an edit to do by hand, or None."""
    about, pairs = parsed(path)
    why = fault(path)
    if not about.endswith(".antt"):
        return why
    stale = [n for _, new in pairs for n in NAME.findall(new) if renamed(n, known) != n] + [n for _, new in pairs for n in re.findall(r"[\w')] \.\w", new)]
    if not why and not stale:
        return None
    if any(o.lstrip().startswith("use ") or n.lstrip().startswith("use ") for o, n in pairs):
        return "an import line: " + (why or "stale names")
    file = read(target(path, about))
    out = []
    for old, new in pairs:
        o = found(turned(old, known, file), file)
        if o is None:
            return f"not found: {turned(old, known, file)}"
        n = turned(new, known, file)
        out.append((old, new, o, n))
        file = file.replace(o, n)
    lines = read(path).split("\n")
    it = iter(out)
    for i, line in enumerate(lines):
        if line.startswith("old: "):
            now = next(it)
            lines[i] = "old: " + now[2]
        elif line.startswith("new:"):
            lines[i] = "new: " + now[3]
    write(path, "\n".join(lines))
    return fault(path)


# ---- beside the older text

def at_old(path):
    r = subprocess.run(["git", "show", f"{OLD}:{os.path.relpath(path, TOP)}"], cwd=TOP, capture_output=True, text=True)
    return r.stdout if r.returncode == 0 else None


def pairs_of(text):
    olds = [l[5:] for l in text.split("\n") if l.startswith("old: ")]
    news = [l[5:] for l in text.split("\n") if l.startswith("new:")]
    return list(zip(olds, news))


def whole_lines(text, part):
    if text is None or part not in text:
        return "(none)"
    i = text.index(part)
    a = text.rfind("\n", 0, i) + 1
    b = text.find("\n", i + len(part))
    return text[a : b if b >= 0 else len(text)]


def beside(path):
    about, pairs = parsed(path)
    file, older = read(target(path, about)), at_old(target(path, about))
    was = pairs_of(at_old(path) or "")
    print("== " + os.path.relpath(path, TOP) + " " + about)
    for i in range(max(len(pairs), len(was))):
        if i < len(was):
            print("  was old:", whole_lines(older, was[i][0]).strip())
            print("  was new:", whole_lines(older, was[i][0]).replace(*was[i]).strip())
            older = (older or "").replace(*was[i])
        if i < len(pairs):
            print("  now old:", whole_lines(file, pairs[i][0]).strip())
            print("  now new:", whole_lines(file, pairs[i][0]).replace(*pairs[i]).strip())
            file = file.replace(*pairs[i])


def main(argv):
    how = argv[0] if argv[:1] in (["--check"], ["--old"]) else None
    names = argv[1:] if how else argv
    if any(n.startswith("-") for n in names):
        print(__doc__)
        return 2
    known = today() if not how else None
    n = bad = 0
    for path in edits(names):
        n += 1
        if how == "--old":
            beside(path)
            continue
        why = fault(path) if how else turn(path, known)
        if why:
            bad += 1
            print(f"{os.path.relpath(path, TOP)}: {why}")
    if how != "--old":
        print(f"{n} edits, {bad} do not apply" if how else f"{n} edits, {bad} left to do by hand")
    return 1 if bad else 0


if __name__ == "__main__":
    raise SystemExit(main(sys.argv[1:]))
