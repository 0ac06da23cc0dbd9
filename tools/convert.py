#!/usr/bin/env python3
"""Turns the proofs of a crate's functions from one Proof.antt each to Invariants.antt and Answers.antt.

usage: tools/convert.py NAMES CRATE [FUNCTION..]     NAMES: the folder that `rt names NAMES` wrote

NAMES/crates/CRATE/names.json has, for each function, the older and the newer name of each goal, step and field. A goal whose answer
was only `search rules` or `omega arith` gets none: the check tries these itself. What the script is not sure of it prints.
"""
import json
import os
import re
import sys

HERE = os.path.dirname(os.path.abspath(__file__))
TOP = os.path.dirname(HERE)
NAME = r"[\w'][\w'-]*"
PATH = re.compile(r"(?<![\w'.◌-])(" + NAME + r")((?:\.[\w'-]+)+)?(?![\w'-])")


# what port.py or respell.py turned in a path that is the source's own name
GARBLED = {"lone_at_lem": "lone_at", "each_back": "all_back", "some_with": "once_with"}


def norm(s):
    s = s.replace("-", "_")
    s = s[0].lower() + s[1:]
    return GARBLED.get(s, s[:-4] if s.endswith("_lem") else s)


class Fn:
    def __init__(self, crate, key, data):
        self.crate, self.data = crate, data
        self.path = key[len(f"Rattle-{crate}-proofs."):-len(".Lts")]
        self.places = {p[0]: (i, p[1], p[2], p[3]) for i, p in enumerate(data["places"])}
        self.said = []

    def say(self, text):
        self.said.append(text)

    def clause(self, fields, rest):
        """A position under clauses: .0, .1.0 .. as a name."""
        n, at, i = len(fields), 0, 0
        while i < len(rest) and rest[i] in ("0", "1") and at < n:
            if at == n - 1:
                break
            if rest[i] == "0":
                return [fields[at]] + rest[i + 1:]
            at += 1
            i += 1
            if at == n - 1:
                return [fields[at]] + rest[i:]
        if rest and rest[0] in fields:
            return rest
        return None

    def field(self, place, segs):
        """The new path, below c, of the old field path segs at a place; None if there is none."""
        i, parent, (old, new), callee = self.places[place]
        head, rest = segs[0], segs[1:]
        if norm(head) in ("args", "requires", "ranges", "lifetimes", "well_formed", "utf8", "type_inv", "auto"):
            if norm(head) == "requires" and self.data["pre"] and rest:
                c = self.clause(self.data["pre"]["fields"], rest)
                if c is None:
                    self.say(f"requires at {'.'.join(segs)}")
                else:
                    rest = c
            return [norm(head)] + rest
        arm = self.data["arms"][i]
        if arm:
            best = None
            for newf, oldf, oldp in arm[2]:
                if norm(oldf) == norm(head) and rest[:len(oldp)] == oldp and oldp:
                    if best is None or len(oldp) > best[1]:
                        best = (newf, len(oldp))
            if best:
                return [arm[0], best[0]] + rest[best[1]:]
        if norm(head) != norm(old):
            return None
        rest = self.parameter(callee, rest)
        if rest[:1] == ["given"] and getattr(self, "goal", None):
            for var, known in self.data["typed"][self.places[self.goal][0]]:
                if norm(known) == norm(head):
                    return ["type_inv", var] + rest[1:]
        c = self.data["clauses"][i]
        if c and rest and rest[0] == "ensures" and c["fields"] and len(rest) > 1:
            k = self.clause(c["fields"], rest[1:])
            if k is None:
                self.say(f"clause at {'.'.join(segs)} of {c['fields']}")
            else:
                rest = ["ensures"] + k
        return [new] + rest

    def parameter(self, callee, rest):
        """.auto.1.1.0 (and .new, .last) by the parameter's name."""
        if callee and rest and rest[0] in ("auto", "new", "last", "old") and len(rest) > 1 and rest[1] in ("0", "1"):
            i = 1
            while i < len(rest) and rest[i] == "1":
                i += 1
            names = self.data["params"].get(callee, [])
            if i < len(rest) and rest[i] == "0" and i - 1 < len(names):
                return [rest[0], names[i - 1]] + rest[i + 1:]
            self.say(f"parameter {'.'.join(rest)} of {callee} {names}")
        return rest

    def resolve(self, place, segs):
        """A path without its steps back: the nearest place at or before the goal's that has the field."""
        segs = [s for k, s in enumerate(segs) if s != "before" or any(x != "before" for x in segs[:k])]
        if not segs:
            return "place", place
        at = self.goal
        while at is not None:
            f = self.field(at, segs)
            if f:
                return "path", f
            at = self.places[at][1]
        self.say(f"no field {segs[0]} ({'.'.join(segs)}) at or before {self.goal}")
        return "path", segs

    def body(self, text, place, root="c"):
        self.goal = place
        aliases = {root: place}
        let = re.compile(r"\blet (" + NAME + r") = (" + NAME + r")((?:\.[\w'-]+)*)\s+in\b[ ]*\n?\s*")
        while True:
            for m in let.finditer(text):
                if m[2] in aliases and m[1] not in aliases:
                    segs = [s for s in m[3].split(".") if s]
                    kind, to = self.resolve(aliases[m[2]], segs) if segs else ("place", aliases[m[2]])
                    if kind == "place":
                        aliases[m[1]] = to
                        text = text[:m.start()] + text[m.end():]
                        break
            else:
                break

        steps = {}
        for m in let.finditer(text):
            if m[2] in aliases and m[1] not in aliases:
                segs = [s for s in m[3].split(".") if s and s != "before"]
                if len(segs) == 1 and norm(segs[0]) != "args" or len(segs) == 2 and segs[1] in ("ensures", "given"):
                    steps[m[1]] = segs

        def sub(m):
            if m[1] in steps and m[2] and m[1] not in aliases:
                segs = steps[m[1]] + [s for s in m[2].split(".") if s]
                kind, to = self.resolve(place, segs)
                kind, step = self.resolve(place, steps[m[1]])
                return ".".join([m[1]] + to[len(step):]) if to[:len(step)] == step else ".".join([root] + to)
            if m[1] not in aliases:
                return m[0]
            segs = [s for s in (m[2] or "").split(".") if s]
            if not segs:
                self.say(f"bare {m[1]}")
                return m[0]
            kind, to = self.resolve(aliases[m[1]], segs)
            if kind == "place":
                self.say(f"bare place {m[0]}")
                return m[0]
            path = ".".join([root] + to)
            # the condition of `if !f(..)` says f's result itself now
            return f"(ap not {path})" if len(to) == 2 and to[0].startswith("if-not-") and to[1] in ("true", "false") else path
        text = PATH.sub(sub, text)
        return re.sub(r"\(?not-(?:true|false) (?:_|[\w.'-]+|\((?:[^()]|\([^()]*\))*\)) \(ap not (c\.[\w.'-]+)\)\)?", lambda m: m[1] if m[0].startswith("(") and m[0].endswith("))") else ("(" if m[0].startswith("(") else "") + m[1] + (")" if m[0].endswith("))") else ""), text)


def items(text):
    """Top-level items: lists of lines."""
    out = []
    for line in text.split("\n"):
        if line and not line[0].isspace() and not line.startswith(("}", "]", ")")):
            out.append([line])
        elif out:
            out[-1].append(line)
        elif line.strip():
            out.append([line])
    return out


def tuple_parts(s):
    """The top-level parts of 's' = '( a, b )', or None."""
    s = s.strip()
    if not (s.startswith("(") and s.endswith(")")):
        return None
    depth, parts, last = 0, [], 1
    for i, ch in enumerate(s):
        if ch in "([{":
            depth += 1
        elif ch in ")]}":
            depth -= 1
            if depth == 0 and i != len(s) - 1:
                return None
        elif ch == "," and depth == 1:
            parts.append(s[last:i])
            last = i + 1
    parts.append(s[last:-1])
    parts = [p.strip() for p in parts if p.strip()]
    return parts if len(parts) > 1 else None


def group_end(s, at):
    """The index after the group that opens at s[at]."""
    depth = 0
    for i in range(at, len(s)):
        if s[i] in "([{":
            depth += 1
        elif s[i] in ")]}":
            depth -= 1
            if depth == 0:
                return i + 1
    return len(s)


def joins(fn, body):
    """⊎_elim (λ w. A) (λ w. B) c.if-x.branch as elim c.if-x.branch [ then-x w ↦ A | else-x w ↦ B ]; and the names that it needs."""
    need = []
    while True:
        m = None
        for m in re.finditer(r"⊎_elim\s+(?=\(λ w\.)", body):
            a = m.end()
            ea = group_end(body, a)
            mb = re.match(r"\s+(?=\(λ w\.)", body[ea:])
            if not mb:
                continue
            b = ea + mb.end()
            eb = group_end(body, b)
            mc = re.match(r"\s+((?:c|[\w']+)\.(?:[\w'-]+\.)*)?(if-[\w'-]+)\.branch", body[eb:])
            if not mc:
                continue
            x = mc[2][3:]
            A, B = (re.match(r"\(λ w\.\s*(.*)\)$", body[i:j], re.S)[1] for i, j in ((a, ea), (b, eb)))
            A = A.replace("w.0.taken", f"w.if-{x}.true").replace("w.0.left", f"w.if-{x}.false")
            B = B.replace("w.0.taken", f"w.if-{x}.true").replace("w.0.left", f"w.if-{x}.false")
            need += [f"then-{x}", f"else-{x}"]
            path = (mc[1] or "") + mc[2] + ".branch"
            body = body[:m.start()] + f"(elim {path} [ then-{x} w ↦ {A} | else-{x} w ↦ {B} ])" + body[eb + mc.end():]
            fn.say(f"join at if-{x}: {sorted(set(re.findall(r'w[.][0-9][a-z0-9.]*', A + B)))}")
            break
        else:
            return body, need


def last_group(s):
    """Where the parenthesised group begins that ends s, or None."""
    s = s.rstrip()
    if not s.endswith(")"):
        return None
    depth = 0
    for i in range(len(s) - 1, -1, -1):
        if s[i] in ")]}":
            depth += 1
        elif s[i] in "([{":
            depth -= 1
            if depth == 0:
                return i
    return None


def as_record(fn, body, fields, known):
    body = body.rstrip()
    if body.strip() in ("search rules", "cc"):
        return "record { " + "; ".join(f"{f} = {body.strip()}" for f in fields) + " }"
    at = last_group(body)
    if at is not None:
        parts = tuple_parts(body[at:])
        n = len(fields)
        while parts and len(parts) < n:
            more = tuple_parts(parts[-1])
            if not more:
                break
            parts = parts[:-1] + more
        if parts and len(parts) == n:
            return body[:at] + "record { " + "; ".join(f"{f} = {p}" for f, p in zip(fields, parts)) + " }"
    m = re.search(r"(?<![\w.'-])(c(?:\.[\w'-]+)*\.ensures)$", body)
    if m:
        return body[:m.start()] + "record { " + "; ".join(f"{f} = {m[1]}.{f}" for f in fields) + " }"
    m = re.match(r"(.*\bin\s+)?(.*)$", body, re.S)
    last = (m[2] or "").strip()
    if re.match(r"[a-z][\w'-]* ", last) and not re.match(r"(rw|elim|simp|let|unfold|cc|search) ", last):
        value = ["both.0", "both.1"] if len(fields) == 2 else [f"all.{k}" for k in range(len(fields))]
        name = "both" if len(fields) == 2 else "all"
        fn.say(f"asked {fields}: by the parts of {last[:60]}")
        return (m[1] or "") + f"let {name} = {last} in record {{ " + "; ".join(f"{f} = {v}" for f, v in zip(fields, value)) + " }"
    fn.say(f"asked {fields}: the answer is no tuple: {last[:80]}")
    return body


def loops_of(crate, path):
    """The loops of a function's source: name -> kind."""
    parts = path.split(".")
    name = parts[-1]
    base = os.path.join(TOP, "crates", crate, "src")
    for f in (os.path.join(base, *parts[:-1]) + ".rt", os.path.join(base, "lib.rt"), os.path.join(base, "main.rt")):
        if os.path.isfile(f):
            m = re.search(r"(?ms)^(?:pub )?(?:extern \"C\" )?(?:unsafe )?fn " + name + r"\b.*?^}", open(f, encoding="utf-8").read())
            if m:
                out = {}
                for k in re.finditer(r"(?:'(\w+):\s*)?\b(for|while|loop)\b(?:\s+\(?(\w+))?", m[0]):
                    out.setdefault(k[1] or f"loop-{k[3]}", k[2])
                return out
    return None


TRIVIAL = {"search rules", "omega arith"}


def convert(fn):
    folder = os.path.join(TOP, "crates", fn.crate, "proofs", *fn.path.split("."))
    file = os.path.join(folder, "Proof.antt")
    if not os.path.isfile(file):
        return None
    text = open(file, encoding="utf-8").read()
    d = fn.data
    comment, uses, helpers = [], [], []
    sigs, kinds = {}, {}
    order, loops = None, loops_of(fn.crate, fn.path)
    if loops is None:
        fn.say("its source was not found")
        loops = {}
    answers, invariants, dropped = {}, [], 0
    constructors = []
    its = items(text)
    # the order of the needs in the last declaration
    m = re.search(r"tie\.spec\b(.*)\Z", text, re.S)
    args = re.findall(NAME, m[1]) if m else []
    invs = {}
    for it in its:
        m = re.match(r"abbrev (" + NAME + r") : tie\.(invariant|decreases)-(" + NAME + ")", it[0])
        if m:
            invs[m[1]] = (m[2], m[3])
    needs = [a for a in args if a not in invs]
    if len(needs) != len(d["needs"]):
        fn.say(f"{len(needs)} needs in the proof, {len(d['needs'])} in the names")
    byold = {norm(o): (o, n, k) for k, (o, n) in enumerate(d["needs"])}
    def need_of(name, typ):
        """(new goal, place) of a need."""
        t = norm(typ)
        for a, b in (("overflow_", ""), ("_again", "_preserved"), ("_less", "_smaller"), ("_holds", "_init")):
            t = t[len(a):] if a == "overflow_" and t.startswith(a) else t
        if t in byold:
            o, n, k = byold[t]
            return n, d["asked_at"][k][0]
        if name in needs and len(needs) == len(d["needs"]):
            k = needs.index(name)
            fn.say(f"need {typ} by its place: {d['needs'][k]}")
            return d["needs"][k][1], d["asked_at"][k][0]
        fn.say(f"need {typ}: not found")
        return None, None

    k = 0
    while k < len(its):
        it = its[k]
        head = it[0]
        k += 1
        if head.startswith("--"):
            if not sigs and not uses:
                comment.append(head)
            else:
                helpers.append(it)
            continue
        if head.startswith("use "):
            if not re.search(r"\.(Statement|Tie)\b", head):
                uses.append("\n".join(it).rstrip())
            continue
        m = re.match(r"abbrev (" + NAME + r") : tie\.(invariant|decreases)-(" + NAME + ")", head)
        if m:
            sigs[m[1]] = ("inv", m[2], m[3])
            continue
        m = re.match(r"(?:pub )?(" + NAME + r") : tie\.Need-(" + NAME + ")", head)
        if m:
            sigs[m[1]] = ("need", m[2], [l for l in it[1:] if l.strip()])
            continue
        if re.match(r"unfolding\b", head) and its[k - 2][0].split(" :")[0].replace("pub ", "") in sigs:
            nm = its[k - 2][0].split(" :")[0].replace("pub ", "")
            if sigs[nm][0] == "need":
                sigs[nm][2].append(head)
            elif sigs[nm][0] == "inv":
                fn.say("unfolding at an invariant")
            continue
        m = re.match(r"(" + NAME + r")((?: [^=\s]+)*) =", head)
        if m and m[1] in sigs:
            s = sigs[m[1]]
            body = "\n".join([head[m.end():].strip()] + it[1:]).strip()
            pats = m[2].split()
            if s[0] == "inv":
                new = None
                for (o, n), vs in d["loops"]:
                    if norm(o) == norm(s[2]):
                        new, vars_ = n, vs
                        ch = d["changed"][[x[0][0] for x in d["loops"]].index(o)]
                if new is None:
                    fn.say(f"loop {s[2]} not found in {[x[0] for x in d['loops']]}")
                    continue
                names = []
                for v, c in zip(vars_, ch):
                    names.append(f"l.initial.{v}" if c else f"l.{v}")
                names += [f"l.{v}" for v, c in zip(vars_, ch) if c]
                if len(names) != len(pats):
                    fn.say(f"{s[1]}-{new}: {len(pats)} patterns, {len(names)} variables {vars_} {ch}")
                table = dict(zip(pats, names))
                table.pop("_", None)
                for b in re.findall(r"λ ((?:" + NAME + r"|\([^)]*\)| )+)\.", body):
                    for w in re.findall(NAME, b):
                        if w in table:
                            fn.say(f"λ {w} hides a variable in {s[1]}-{new}")
                def sub(mm):
                    return table.get(mm[1], mm[1]) + (mm[2] or "")
                body = PATH.sub(sub, body)
                kind = loops.get(new) or loops.get(re.sub(r"-\d+$", "", new))
                if s[1] == "decreases" and kind == "for":
                    continue
                if kind is None:
                    fn.say(f"loop {new} not seen in the source ({loops})")
                invariants.append((f"{s[1]}-{new}", body))
            else:
                goal, place = need_of(m[1], s[1])
                if goal is None:
                    continue
                mm = re.match(r"(.*)-smaller(-\d+)?$", goal)
                if mm and (loops.get(mm[1]) or loops.get(re.sub(r"-\d+$", "", mm[1]))) == "for":
                    continue
                if "κs" in pats:
                    pats.remove("κs")
                    if re.search(r"\bκs\b", body):
                        fn.say(f"κs used in {goal}")
                if pats != ["c"]:
                    fn.say(f"{goal}: arguments {pats}")
                unf = [u for u in s[2]]
                if not unf and body in TRIVIAL:
                    dropped += 1
                    continue
                body = fn.body(body, place)
                body, more = joins(fn, body)
                constructors.extend(more)
                fields = d["asked"].get(goal) or d["asked"].get(m[1]) or next((v for kk, v in d["asked"].items() if norm(kk) == norm([o for o, n in d["needs"] if n == goal][0])), None)
                if fields and len(fields) > 1:
                    body = as_record(fn, body, fields, None)
                answers[goal] = (unf, body)
            continue
        if re.match(r"pub " + NAME + r" : \{M : Type 1\}", head) or re.match(NAME + r"[-_]spec =", head):
            continue
        if "tie." in "\n".join(it):
            fn.say(f"helper with tie: {head[:80]}")
        helpers.append(it)

    own = f"Rattle.{fn.crate}.proofs.{fn.path}"

    def used(text):
        words = set(re.findall(r"[^\s(){}\[\];,.]+", text))
        ops = set(re.findall(r"[^\w\s(){}\[\];,.'-]+", text))
        out = []
        for u in uses:
            m = re.match(r"use (\S+?)\.\{(.*)\}$", u, re.S)
            if not m:
                out.append(u)
                continue
            keep = []
            for n in m[2].split(","):
                n = n.strip()
                if not n:
                    continue
                w = n.split(" as ")[-1].strip()
                bare = w.replace("◌", "")
                if w in words or (w == "[]" and "[]" in text) or ("◌" in w and (bare in words or bare in ops or any(b in text for b in [bare]))):
                    keep.append(n)
            if keep:
                out.append(f"use {m[1]}.{{{', '.join(keep)}}}")
        if "(ap not " in text:
            for module, n in (("mathlib.Core.Path", "ap"), ("mathlib.Core.Bool", "not")):
                if not any(re.search(r"[{ ]" + n + r"[,}]", u) for u in out):
                    at = next((j for j, u in enumerate(out) if u.startswith(f"use {module}.{{")), None)
                    if at is None:
                        out.insert(0, f"use {module}.{{{n}}}")
                    else:
                        out[at] = out[at][:-1] + f", {n}}}"
        return out

    result = {}
    first = comment[0] if comment else f"-- `{fn.path.split('.')[-1]}` meets its contract."
    if invariants:
        text = "".join(f"\nabbrev pub {n} : goal.{n}\n{n} l = {b}\n" for n, b in invariants)
        result["Invariants.antt"] = "\n".join([f"-- What the loops of `{fn.path.split('.')[-1]}` keep.", *used(text), f"use {own}.Given as goal"]) + "\n" + text
    if answers or helpers:
        text = ""
        hs = "".join("\n" + "\n".join(h).rstrip() + "\n" if not (j and helpers[j - 1][0].startswith("--")) and not (re.match(r"(" + NAME + r")", h[0]) and j and re.match(re.escape(re.match(r"(?:abbrev )?(?:pub )?(" + NAME + r")", helpers[j - 1][0])[1] if re.match(r"(?:abbrev )?(?:pub )?(" + NAME + r")", helpers[j - 1][0]) else "\0") + r"\b", h[0])) and not h[0].startswith("unfolding") else "\n".join(h).rstrip() + "\n" for j, h in enumerate(helpers))
        if re.search(r"(?<![\w.'-])c\.before", hs):
            fn.say("a helper speaks of c.before")
        for g, (unf, b) in answers.items():
            text += f"\npub {g} : goal.{g}\n" + "".join(u + "\n" for u in unf) + f"{g} c = {b}\n"
        text = hs + text
        extra = [f"use {own}.Goals.{{{', '.join(dict.fromkeys(constructors))}}}"] if constructors else []
        result["Answers.antt"] = "\n".join([first, *used(text), f"use {own}.Goals as goal", *extra]) + "\n" + text
    return folder, file, result, dropped


def main():
    names, crate, only = sys.argv[1], sys.argv[2], sys.argv[3:]
    with open(os.path.join(names, "crates", crate, "names.json"), encoding="utf-8") as f:
        data = json.load(f)
    for key, value in data.items():
        if not key.endswith(".Lts") or "places" not in value:
            continue
        fn = Fn(crate, key, value)
        if only and fn.path not in only and fn.path.split(".")[-1] not in only:
            continue
        r = convert(fn)
        if r is None:
            continue
        folder, file, result, dropped = r
        os.remove(file)
        for n, t in result.items():
            with open(os.path.join(folder, n), "w", encoding="utf-8") as f:
                f.write(t)
        if not result and not os.listdir(folder):
            os.rmdir(folder)
        for s in fn.said:
            print(f"{crate}::{fn.path}: {s}")


if __name__ == "__main__":
    main()
