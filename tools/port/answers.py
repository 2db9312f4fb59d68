#!/usr/bin/env python3
"""Turns the proofs of a crate that close a goal by its old name (Proof.antt over Tie) into Answers.antt and Invariants.antt.

usage: tools/port/answers.py CRATE [FUNCTION..]      at the top of the repository; the crate's libraries have to be built

For each function it asks `rt check --generated DIR --old-names` for the old and new names of goals, steps and loops, writes the answers
under the new names, and removes Proof.antt. Answers that only call `search rules` or `omega arith` go: the check tries these by itself.
What it could not turn it says in a line that begins with 'look:'. Walks by hand, which cite no Tie, it leaves.
"""

import json
import os
import re
import subprocess
import sys
import tempfile

TOP = os.getcwd()
IDENT = r"[^\s(){}\[\];,.:\"`=]+"
BASIC = {"args", "requires", "well_formed", "ranges", "lifetimes", "type_inv", "auto"}


def norm(w):
    return re.sub(r"[-_«»]", "", w).lower()


def names_of(crate):
    with tempfile.TemporaryDirectory() as d:
        out = os.path.join(d, "g")
        r = subprocess.run(["rt", "check", "--generated", out, "--old-names"], cwd=os.path.join(TOP, "crates", crate), capture_output=True, text=True)
        p = os.path.join(out, "names.json")
        if not os.path.exists(p):
            print(r.stdout[-3000:], r.stderr[-500:])
            raise SystemExit("answers: no names for " + crate)
        with open(p) as f:
            return json.load(f)


def params_of(crate, path):
    """The parameters of a function, by its source."""
    name = path.split(".")[-1]
    src = os.path.join(TOP, "crates", crate, "src")
    for n in sorted(os.listdir(src)):
        with open(os.path.join(src, n), encoding="utf-8") as f:
            for m in re.finditer(r"\bfn " + re.escape(name) + r"(?:<[^>]*>)?\(([^)]*)\)", f.read()):
                return [p.split(":")[0].replace("mut ", "").strip(" &\n") for p in m[1].split(",") if p.strip()]
    return []


def blocks(text):
    """The top-level declarations: [(comment lines, name, lines)]."""
    out, comment, now = [], [], None
    for line in text.split("\n"):
        if line.startswith("--"):
            if now:
                out.append(now)
                now = None
            comment.append(line)
        elif not line.strip():
            if now:
                now[2].append(line)
        elif line[0] in " \t)]}":
            now[2].append(line)
        else:
            word = line.split()[0]
            if word in ("use",):
                if now:
                    out.append(now)
                now = (comment, "use", [line])
                comment = []
                continue
            m = re.match(r"(?:(?:pub|abbrev|unfoldable) )*(\S+)", line)
            name = m[1]
            if now and (word == "unfolding" or now[1] == name):
                now[2].append(line)
                continue
            if now:
                out.append(now)
            now = (comment, name if word != "module" else "module", [line])
            comment = []
    if now:
        out.append(now)
    for b in out:
        while b[2] and not b[2][-1].strip():
            b[2].pop()
    return out, comment


class Function:
    def __init__(self, of):
        self.of = of
        self.places = {}
        self.parent = {}
        self.step = {}
        self.new_name = {}
        self.callee = {}
        self.arms = {}
        for i, p in enumerate(of["places"]):
            self.parent[p[0]] = p[1]
            self.step[p[0]] = p[2]
            self.new_name[p[0]] = of["places_by_name"][i]
            self.callee[p[0]] = p[3]
            self.arms[p[0]] = of["arms"][i] if i < len(of["arms"]) else None

    def ups(self, p):
        out = []
        while p:
            out.append(p)
            p = self.parent.get(p)
        return out

    def place(self, word):
        for p in self.parent:
            if norm(p) == norm(word):
                return p
        return None


def convert(crate, path, fn_path, of, text):
    """The text of Answers.antt and Invariants.antt, and what to look at."""
    f = Function(of)
    says = []
    parts, _ = blocks(text)
    uses, decls, heads = [], [], []
    spec_order = None
    for comment, name, lines in parts:
        body = "\n".join(lines)
        if name == "use":
            heads += comment
            if ".Statement.{" in body or re.search(r"\.Tie as tie", body):
                continue
            uses.append(body)
        elif "tie.close" in body or re.search(r"statement M", body):
            m = re.search(r"tie\.spec\s+([^)]*)\)", body, re.S)
            if m:
                spec_order = m[1].split()
        else:
            decls.append((comment, name, lines))
    if spec_order is None:
        return None, None, ["no tie.spec"]
    loops = [l for l in spec_order if l.startswith(("invariant-", "decreases-", "invariant_", "decreases_"))]
    order = [l for l in spec_order if l not in loops]
    needs = of["needs"]
    # the type of each local name
    types = {}
    for comment, name, lines in decls:
        m = re.search(r":\s*(?:\n\s*)?tie\.Need-(\S+)", "\n".join(lines))
        if m:
            types[name] = m[1]
    kept = [n for n in order if not norm(types.get(n, n)).startswith(("enum", "rowknown", "structknown"))]
    to = {}
    if len(order) == len(needs):
        to = {n: i for i, n in enumerate(order)}
    elif len(kept) == len(needs):
        to = {n: i for i, n in enumerate(kept)}
    else:
        used = set()
        for n in order:
            key = norm(types.get(n, n))
            for i, (old, new) in enumerate(needs):
                if i not in used and key in (norm(old), "overflow" + norm(old)):
                    to[n] = i
                    used.add(i)
                    break
        missing = [n for n in order if n not in to and n in kept]
        if missing:
            says.append(f"goals that were not found: {' '.join(missing)}; there are {' '.join(b for a, b in needs)}")

    loop_names = {}
    for (old, new), variables in of["loops"]:
        loop_names[norm(old)] = (new, variables)

    root_place = [None]

    def chain(text, env):
        """Steps of the code by their new names. env: variable -> place."""

        def one(m):
            var, befores, rest = m[1], m[2] or "", m[3] or ""
            if var not in env:
                return m[0]
            if not rest:
                return m[0]
            p = env[var]
            for _ in range(befores.count(".before")):
                p = f.parent.get(p) or p
            words = rest[1:].split(".")
            # a step that respell.py took for a lemma of that name
            first = re.sub(r"_lem$", "", words[0])
            if first == "pre":
                return ".".join([var, "requires", *words[1:]])
            if norm(first) in {norm(b) for b in BASIC}:
                return ".".join([var, first.replace("well-formed", "well_formed"), *words[1:]])
            # steps have one name each, so the place is found by it: at the place that the old file counts to, or above or below it
            for q in f.ups(p) + f.ups(root_place[0] or p):
                arm = f.arms.get(q)
                step_old, step_new = f.step[q]
                if arm:
                    for field, step, where in arm[2]:
                        if norm(step) == norm(first) and words[1 : 1 + len(where)] == where and not field.endswith("-own"):
                            return ".".join([var, arm[0], field, *words[1 + len(where) :]])
                if step_old and norm(first) == norm(step_old):
                    # std names the one clause of these
                    if words[1:] == ["ensures"] and "::wrapping_" in (f.callee[q] or ""):
                        words.append("value")
                    return ".".join([var, step_new, *words[1:]])
            says.append(f"no step {first} at {p}: {m[0]}")
            return m[0]

        return re.sub(r"(?<![\w.'-])(" + "|".join(re.escape(v) for v in env) + r")((?:\.before)*)((?:\.(?!before\b)" + IDENT + r")*)(?![\w'-])", one, text)

    def body_of(lines, env):
        """The lines of a clause, with what `let` binds followed."""
        out = []
        env0 = dict(env)
        root_place[0] = next(iter(env.values())) if len(env) == 1 else None
        env = dict(env)
        text = "\n".join(lines)
        # (c.before.before).f is c.before.before.f
        text = re.sub(r"\((\w+(?:\.before)*)\)\.", r"\1.", text)
        pos = 0
        pieces = []
        for m in re.finditer(r"let (\S+) = (\w+)((?:\.before)*) in\b[ ]?(\n[ ]*)?", text):
            pieces.append(("text", text[pos : m.start()]))
            pieces.append(("let", m))
            pos = m.end()
        pieces.append(("text", text[pos:]))
        for kind, it in pieces:
            if kind == "text":
                out.append(chain(it, env))
            else:
                v, base, befores = it[1], it[2], it[3]
                if base in env:
                    p = env[base]
                    for _ in range(befores.count(".before")):
                        p = f.parent.get(p) or p
                    if p:
                        env[v] = p
                        out.append(f"\0LET {v} {base}{befores}\0" + (it[4] or ""))
                        continue
                out.append(it[0])
        text = "".join(out)
        # a lemma of the file over a place is given that place, however far up it is
        root, at = next(iter(env0.items())) if len(env0) == 1 else (None, None)
        if root:

            def far(m):
                n, p = 0, at
                while p and p != helpers[m[1]]:
                    p, n = f.parent.get(p), n + 1
                return f"{m[1]} {root}{'.before' * n}" if p else m[0]

            bound = [root] + re.findall(r"\0LET (\S+) ", text)
            if helpers:
                text = re.sub(r"(?<![\w.'-])(" + "|".join(re.escape(h) for h in helpers) + r") ((?:" + "|".join(map(re.escape, bound)) + r")(?:\.before)*)(?![\w.'-])", far, text)
        # a name of a place whose fields alone are read is the whole record
        for m in list(re.finditer(r"\0LET (\S+) (\w+)((?:\.before)*)\0(\n[ ]*)?", text))[::-1]:
            v = m[1]
            rest = text[m.end() :]
            bare = re.search(r"(?<![\w.'-])" + re.escape(v) + r"(?:\.before)*(?![\w.'-])", rest.replace("\0", " \0"))
            lets = re.search(r"\0LET \S+ " + re.escape(v) + r"(?:\.before)*\0", rest)
            if bare:
                text = text[: m.start()] + f"let {v} = {m[2]}{m[3]} in" + (m[4] or " ") + rest
            else:
                root = m[2]
                rest = re.sub(r"(?<![\w.'-])" + re.escape(v) + r"\.(?!before\b)", root + ".", rest)
                text = text[: m.start()] + rest
        # a test of !x says of x itself now
        path = r"\w+(?:\.[^\s(){}\[\];,.]+)*?\.if-not-[^\s(){}\[\];,.]+\.(?:true|false)"
        text = re.sub(r"\((?:not-true|not-false|not_true|not_false) _\s+(" + path + r")\)", r"\1", text)
        text = re.sub(r"(?<![\w'.-])(?:not-true|not-false|not_true|not_false) _\s+(" + path + r")", r"\1", text)
        # a parameter that had no name of its own
        text = re.sub(r"\.args\.t(\d+)(?![\w'-])", lambda k: ".args." + params[int(k[1]) - 1] if int(k[1]) <= len(params) else k[0], text)
        return text.split("\n")

    named = set()
    params = params_of(crate, path)

    def types_turned(text):
        text = re.sub(r"tie\.Need-\S+", "", text)

        def one(m):
            p = f.place(m[1])
            if p is None:
                says.append("no place " + m[1])
                return m[0]
            named.add(f.new_name[p])
            return f.new_name[p]

        text = re.sub(r"tie\.(" + IDENT + r")", one, text)
        for l in loops:
            text = re.sub(r" (?:invariant|decreases)[-_]\w+(?=[ )\n]|$)", "", text)
        return text

    helpers = {}
    for comment, name, lines in decls:
        m = re.match(r"(?:abbrev )?" + re.escape(name) + r" : (?:\(\w+ : )?tie\.(?!Need-)(" + IDENT + r")", "\n".join(lines))
        if m and name not in loops and f.place(m[1]):
            helpers[name] = f.place(m[1])

    answers, invariants, lets = [], [], {}
    for comment, name, lines in decls:
        text = "\n".join(lines)
        if name in loops:
            old = re.sub(r"^(invariant|decreases)-?", "", name)
            kind = re.match(r"(invariant|decreases)", name)[1]
            key = norm(old) if norm(old) in loop_names else norm(name.replace("invariant-", "").replace("decreases-", ""))
            if key not in loop_names:
                says.append("no loop " + name)
                continue
            new, variables = loop_names[key]
            i = [norm(o) for (o, n), v in of["loops"]].index(key)
            changed = of["changed"][i]
            m = re.search(r"\n" + re.escape(name) + r" ([^=]*?)=(.*)$", text, re.S)
            args, rest = m[1].split(), m[2]
            unf = re.findall(r"^unfolding .*$", text, re.M)
            want = [(v, c) for v, c in zip(variables, changed)]
            places = [f"l.initial.{v}" if c else f"l.{v}" for v, c in want] + [f"l.{v}" for v, c in want if c]
            if len(places) != len(args):
                says.append(f"{name}: {len(args)} arguments, and {len(places)} variables: {' '.join(places)}")
            sub = dict(zip(args, places))
            rest = re.sub(r"(?<![\w.'-])(" + "|".join(re.escape(a) for a in sorted(sub, key=len, reverse=True)) + r")(?![\w'₀-])", lambda k: sub[k[1]], rest)
            invariants.append("\n".join(comment + [f"abbrev pub {kind}-{new} : goal.{kind}-{new}"] + unf + [f"{kind}-{new} l ={rest}"]))
            continue
        if name in to or name in types:
            if name not in to:
                if not re.search(r"=\s*search rules\s*$", text) and norm(types[name])[:4] not in ("enum",):
                    says.append("left out: " + text.replace("\n", " / ")[:300])
                continue
            i = to[name]
            new = needs[i][1]
            m = re.search(r"(?:^|\n)" + re.escape(name) + r" (\S+)((?: [^\s=()]+)*) =(.*)$", text, re.S)
            if not m:
                says.append("no clause in " + text[:200])
                continue
            rest = m[3]
            more = m[2].replace(" κs", "")
            unf = re.findall(r"^unfolding .*$", text, re.M)
            if not unf and re.fullmatch(r"\s*(search rules|omega arith)\s*", rest):
                continue
            at = of["asked_at"][i][0] if i < len(of["asked_at"]) else None
            if at is None:
                says.append("no place of " + new)
                at = "Start"
            var = m[1]
            body = body_of(rest.split("\n"), {var: at})
            answers.append((name, "\n".join(comment + [f"pub {new} : goal.{new}"] + unf + [f"{new} {var}{more} =" + "\n".join(body)])))
            continue
        # a lemma of the file
        env = {}
        for m in re.finditer(r"\((\w+) : tie\.(" + IDENT + r")", text):
            p = f.place(m[2])
            if p:
                env[m[1]] = p
        if not env:
            m = re.match(r"(?:abbrev )?\S+ : tie\.(" + IDENT + r")", text)
            v = re.search(r"\n" + re.escape(name) + r" (\w+)", text)
            if m and v and f.place(m[1]):
                env[v[1]] = f.place(m[1])
        if name in helpers and "unfolding" not in text:
            m = re.match(r"(?:abbrev )?" + re.escape(name) + r" : (?:\((\w+) : tie\.[^)]*\)|tie\.[^→]*?) →\s+(.*?)\n" + re.escape(name) + r" (\w+) =\s*(.*)$", text, re.S)
            if m and m[1] in (None, m[3]):
                m = [m[0], m[3], m[2], m[3], m[4]]
                t = "\n".join(body_of(m[2].split("\n"), {m[1]: helpers[name]}))
                b = "\n".join(body_of(m[4].split("\n"), {m[1]: helpers[name]}))
                lets[name] = (m[1], comment, " ".join(t.split()), b.strip("\n"))
                continue
        t = types_turned(text)
        if env:
            t = "\n".join(body_of(t.split("\n"), env))
        answers.append((name, "\n".join(comment + [t])))

    # a lemma over a place is a `let` of each answer that cites it
    def with_lets(text):
        m = re.match(r"(.*?\n?)(\S+ (\w+) =)(.*)$", text, re.S)
        m = re.search(r"^(\S+) (\w+) =", text, re.M)
        if not m:
            return text
        var, start = m[2], m.end()
        head, body = text[:start], text[start:]
        wanted = []

        def cited(t):
            for n in lets:
                k = re.search(r"(?<![\w.'-])" + re.escape(n) + r"\s+\w+(?:\.before)*(?![\w.'-])", t)
                if k and n not in wanted:
                    v, _, ty, bo = lets[n]
                    cited(ty)
                    cited(bo)
                    wanted.append(n)

        cited(body)
        if not wanted:
            return text

        def bare(t):
            for n in wanted:
                t = re.sub(r"(?<![\w.'-])\(" + re.escape(n) + r"\s+\w+(?:\.before)*\)", n, t)
                t = re.sub(r"(?<![\w.'-])" + re.escape(n) + r"\s+\w+(?:\.before)*(?![\w.'-])", n, t)
            return t

        out = []
        for n in wanted:
            v, _, ty, bo = lets[n]
            own = lambda t: re.sub(r"(?<![\w.'-])" + re.escape(v) + r"(?=\.)", var, t)
            out.append(f"    let {n} : {bare(own(ty))} = {bare(own(bo)).strip()} in")
        return head + "\n" + "\n".join(out) + "\n    " + bare(body).strip()

    answers = [(n, with_lets(t) if t.lstrip().startswith(("pub", "--")) or ": goal." in t else t) for n, t in answers]
    # answers that cite others by their old names
    local = {n: needs[i][1] for n, i in to.items()}
    turned = []
    for n, t in answers:
        m = re.search(r"^(\S+) (\w+) =", t, re.M)
        if m and n in to:
            body = t[m.end() :]
            body = re.sub(r"(?<![\w.'-])(" + "|".join(re.escape(k) for k in sorted(local, key=len, reverse=True)) + r")(?= " + re.escape(m[2]) + r"(?![\w'-]))", lambda k: local[k[1]], body)
            t = t[: m.end()] + body
        turned.append((n, t))
    # what is cited stands first
    order_of, placed, done = {local.get(n, n): (n, t) for n, t in turned}, [], set()

    def put(key):
        if key in done:
            return
        done.add(key)
        n, t = order_of[key]
        m = re.search(r"^(\S+) (\w+) =", t, re.M)
        body = t[m.end() :] if m else ""
        for other in order_of:
            if other != key and other in local.values() and re.search(r"(?<![\w.'-])" + re.escape(other) + r" \w+(?![\w'-])", body):
                put(other)
        placed.append(t)

    for n, t in turned:
        put(local.get(n, n))
    answers = placed
    head = "\n".join(heads + uses)
    body = "\n\n".join(answers)
    inv = "\n\n".join(invariants)

    def with_uses(body, last):
        words = set(re.findall(r"[^\s(){}\[\];,.]+", body)) | set(re.findall(IDENT, body))
        out = []
        for u in uses:
            m = re.match(r"use (\S+)\.\{(.*)\}$", u, re.S)
            if not m:
                out.append(u)
                continue
            items = [x.strip() for x in m[2].split(",")]
            keep = [x for x in items if x in words or x.split(" as ")[-1] in words or "◌" in x and any(k in words for k in [y for y in x.split("◌") if y]) or x in ("[]",) and "[]" in body or x == "rules" and "rules" in words]
            if keep:
                out.append(f"use {m[1]}.{{{', '.join(keep)}}}")
        return "\n".join(heads + out + [last]) + "\n\n" + body + "\n"

    goals = f"use Rattle.{crate}.proofs.{path}.Goals as goal"
    if named:
        goals += f"\nuse Rattle.{crate}.proofs.{path}.Goals.{{{', '.join(sorted(named))}}}"
    ans = with_uses(body, goals) if answers else ""
    inv = with_uses(inv, f"use Rattle.{crate}.proofs.{path}.Given as goal") if invariants else ""
    # a file whose lemmas alone are left says nothing
    if answers and not re.search(r": goal\.[a-z]", "\n".join(l for a in answers for l in a.split("\n") if l.startswith("pub "))):
        ans = ""
    return ans, inv, says


def main(argv):
    if not argv:
        print(__doc__)
        return 2
    crate, only = argv[0], argv[1:]
    names = names_of(crate)
    top = os.path.join(TOP, "crates", crate, "proofs")
    for module, of in sorted(names.items()):
        m = re.match(r"Rattle-[\w]+-proofs\.(.+)\.Lts$", module)
        if not m:
            continue
        path = m[1]
        if only and path not in only:
            continue
        folder = os.path.join(top, *path.split("."))
        p = os.path.join(folder, "Proof.antt")
        if not os.path.exists(p):
            continue
        text = open(p, encoding="utf-8").read()
        if "tie.close" not in text:
            print(f"look: {crate} {path}: a walk by hand")
            continue
        ans, inv, says = convert(crate, path, folder, of, text)
        for s in says:
            print(f"look: {crate} {path}: {s}")
        if ans is None:
            continue
        os.remove(p)
        for n, t in (("Answers.antt", ans), ("Invariants.antt", inv)):
            if t:
                with open(os.path.join(folder, n), "w", encoding="utf-8") as out:
                    out.write(t)
        if not ans and not inv:
            os.rmdir(folder)
    return 0


if __name__ == "__main__":
    raise SystemExit(main(sys.argv[1:]))
