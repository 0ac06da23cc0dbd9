#!/usr/bin/env python3
"""Counts the places of docs/DESIGN-PASS.md: python3 tools/places.py [-v] [ROOT]. With -v each place is printed."""
import collections
import os
import re
import sys

ARGUMENTS = [a for a in sys.argv[1:] if a != "-v"]
ROOT = ARGUMENTS[0] if ARGUMENTS else "."
VERBOSE = "-v" in sys.argv

# functions that compare, convert, copy or print by hand
BY_HAND = r"^(wide|number|larger|lesser|lesser_of|greater_of|same|are_ones|copied|copy_front|copy_words|clear|clear_\w+|digit|character|symbol|show_\w+|field|put_decimal|put_bytes|bits_of|byte|value|refused)$"
# parameters that travel together
GROUPS = [("words", "n", "m", "k"), ("tags", "values"), ("word", "floats"), ("erased", "ones"), ("pivots", "r"), ("step_checks", "step_bits"), ("by", "own"), ("lows", "highs"), ("words", "used", "checks"), ("cols", "width"), ("rows", "width")]


def sources():
    for top, folders, names in sorted(os.walk(os.path.join(ROOT, "crates"))):
        folders[:] = sorted(f for f in folders if f != "out")
        if re.match(r"[a-z_]+/src(/|$)", os.path.relpath(top, os.path.join(ROOT, "crates"))):
            for name in sorted(names):
                if name.endswith(".rt"):
                    yield os.path.join(top, name)


def functions(text):
    """Each function: its name, the line where it begins, its comment, its head with the clauses, and its body."""
    lines = text.split("\n")
    found = []
    for at, line in enumerate(lines):
        match = re.match(r"^\s*(?:pub(?:\(crate\))? )?(?:const )?(?:extern \"C\" )?fn (\w+)", line)
        if not match:
            continue
        indent = len(line) - len(line.lstrip())
        end = at
        while end < len(lines) and not re.match(r"^ {%d}\{|^.*\{$" % indent, lines[end]):
            end += 1
        close = end
        while close < len(lines) and lines[close] != " " * indent + "}":
            close += 1
        above = at
        while above > 0 and lines[above - 1].lstrip().startswith(("//", "#[")):
            above -= 1
        found.append((match.group(1), at + 1, "\n".join(lines[above:at]), "\n".join(lines[at:end + 1]), "\n".join(lines[end + 1:close])))
    return found


places = collections.OrderedDict()


def add(kind, path, line, what):
    places.setdefault(kind, []).append(f"{os.path.relpath(path, ROOT)}:{line}: {what}")


parts = collections.defaultdict(set)
for path in sources():
    text = open(path, encoding="utf-8").read()
    for match in re.finditer(r"^(?:pub )?enum (\w+)", text, re.M):
        add("1 enums of our own", path, text[:match.start()].count("\n") + 1, match.group(1))
    for name, line, comment, head, body in functions(text):
        if re.search(r"if there (is|are) none|or the length|contains none there|or nothing|and \d+ if none|if none does", comment) and "->" in head and "Option" not in head and "Result" not in head:
            add("1 answers with a number for 'none'", path, line, name)
        if re.search(r"\b(tag|kind|stage|cause|name)\b(\[\w+\])? *(==|!=|<=?|>=?) *\d|\d *(==|<=?) *\b(tag|kind|stage|cause|name)\b", body):
            add("1 numbers for kinds", path, line, name)
        if re.search(r"// The same\b", comment):
            add("2 functions that say 'the same'", path, line, name)
        if re.match(r"^(no|empty|erased|all)_\w+$", name) and re.search(r"->\s*\[", head):
            add("2 functions that make an array of one value", path, line, name)
        for loop in re.finditer(r"^\s*(?:'\w+: )?(while|for|loop)\b(.*)$", body, re.M):
            at = line + head.count("\n") + 1 + body[:loop.start()].count("\n")
            if loop.group(1) == "while" and not re.search(r"!= 0|let ", loop.group(2)):
                add("3 while loops over an index", path, at, name + ": while" + loop.group(2))
            elif loop.group(1) == "for" and re.search(r"in \S+\.\.", loop.group(2)):
                add("3 for loops over a range of indices", path, at, name + ": for" + loop.group(2))
        if re.match(BY_HAND, name):
            add("4 comparing, converting, copying, printing by hand", path, line, name)
        names = re.findall(r"(\w+): ", head.split("requires")[0].split("ensures")[0])
        for group in GROUPS:
            if all(each in names for each in group):
                add("5 parameters that travel together", path, line, f"{name}: {', '.join(group)}")
        for clause in re.findall(r"requires \w* ?\{(.*)\}", head):
            for part in clause.split(" × "):
                parts[part.strip().strip("()")].add(f"{os.path.relpath(path, ROOT)}:{line}: {name}")
        calls = re.findall(r"(\w+)\((?:[\w&, ]*)\b\d\b", body)
        if re.search(r"if used (==|<=) \d", body) and any(calls.count(each) > 1 for each in calls):
            add("7 switches on which function to run", path, line, name)
        if re.search(r"(step_checks|by): &(mut )?\[u16\]", head) or re.search(r"tags: &(mut )?\[u8\],\s+values: ", head) or re.search(r"(pivots): &(mut )?\[usize\],\s+r: usize", head):
            add("6 parallel arrays, or a buffer with its length", path, line, name)
for part, where in sorted(parts.items()):
    if len(where) >= 3:
        places.setdefault("5 facts that three or more contracts ask", []).append(f"{part}: {len(where)} functions")
for kind, found in sorted(places.items()):
    print(f"{len(found):4} {kind}")
    if VERBOSE:
        for each in found:
            print("      ", each)
