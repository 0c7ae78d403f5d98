#!/usr/bin/env python3
"""Counts the places of src/ that docs/DESIGN-PASS.md speaks of, and prints each.

usage: tools/places.py [--brief] [TREE]     TREE is a checkout, by default this one

A place is a line to look at, not a verdict. Tests are counted apart. What cannot be found by a pattern (a sentinel that
stands for none, arrays that run in parallel) is found by reading, and the page lists it by hand.
"""
import glob, os, re, sys
from collections import defaultdict

brief = "--brief" in sys.argv
args = [a for a in sys.argv[1:] if not a.startswith("--")]
root = args[0] if args else os.path.dirname(os.path.dirname(os.path.abspath(__file__)))
files = sorted(f for f in glob.glob(root + "/crates/*/src/**/*.rt", recursive=True) if "/out/" not in f)
text = {f[len(root) + 8:]: open(f, encoding="utf-8").read() for f in files}


def places(pattern, flags=0):
    found = []
    for f, s in text.items():
        for m in re.finditer(pattern, s, re.M | flags):
            line = s.count("\n", 0, m.start()) + 1
            shown = s.split("\n")[line - 1].strip()
            if not shown.startswith("//"):
                found.append((f, line, shown))
    return found


def show(title, found):
    code = [p for p in found if not p[0].endswith("tests.rt")]
    print(f"{title}: {len(code)} in code, {len(found) - len(code)} in tests")
    if not brief:
        for f, line, shown in found:
            print(f"    {f}:{line}: {shown[:110]}")


# A function that has a body: where it stands, its name, what stands before its body, and the body.
def functions():
    for f, s in text.items():
        lines = s.split("\n")
        for i, l in enumerate(lines):
            m = re.match(r"( *)(?:pub(?:\(crate\))? )?fn (\w+)", l)
            if not m:
                continue
            start = next((j for j in range(i, len(lines)) if lines[j] == m.group(1) + "{" or lines[j].endswith(";") or lines[j].endswith(" {") and "fn" in "\n".join(lines[i:j + 1])), None)
            if start is None or lines[start].endswith(";"):
                continue
            end = next(j for j in range(start, len(lines)) if lines[j] == m.group(1) + "}")
            yield f, i + 1, m.group(2), "\n".join(lines[i:start]) + lines[start], "\n".join(lines[start + 1:end])


WORDS = {"if", "else", "match", "for", "in", "while", "loop", "return", "let", "mut", "fn", "as", "break", "self", "Self", "Some", "None", "Ok", "Err", "true", "false"}


# The body with each other name and number by the order in which it comes first.
def shape(body):
    body = re.sub(r"//[^\n]*", "", body)
    seen = {}
    out = []
    for w in re.findall(r"\w+|[^\s\w]", body):
        if re.match(r"[A-Za-z_]\w*$", w) and w not in WORDS or w.isdigit():
            out.append("n%d" % seen.setdefault(w, len(seen)))
        else:
            out.append(w)
    return tuple(out)


def twins():
    groups = defaultdict(list)
    for f, line, name, head, body in functions():
        if len(shape(body)) >= 14 and not f.endswith("tests.rt"):
            groups[shape(body)].append((f, line, name))
    found = []
    for g in groups.values():
        for f, line, name in g[1:]:
            found.append((f, line, f"{name}, as {g[0][0]} {g[0][2]}"))
    return sorted(found)


# A premise of three functions or more: a `requires` to the letter, or what an `ensures` begins with before its first arrow, by its word.
def repeated():
    groups = defaultdict(set)
    for f, line, name, head, body in functions():
        for m in re.finditer(r"requires (?:\w+ )?\{(.*?)\}\s*$", head, re.M | re.S):
            groups["requires " + " ".join(m.group(1).split())].add((f, line, name))
        for m in re.finditer(r"ensures (?:\w+ )?\{ ((?:[^{}()→]|\([^{}()→]*\))*?) →", head):
            groups["premise " + re.sub(r"^\w+\.", "", m.group(1).split()[0])].add((f, line, name))
    return sorted((f, line, f"{name}: {clause[:70]}") for clause, g in groups.items() if len(g) >= 3 for f, line, name in g)


# Three parameters or more, by name and type, that three functions or more take together.
def together():
    lists = {}
    for f, line, name, head, body in functions():
        m = re.search(r"\((.*?)\)\s*(?:->|\n|$)", head, re.S)
        if m and not f.endswith("tests.rt"):
            lists[(f, line, name)] = frozenset(re.sub(r"\s+", " ", p.strip()) for p in re.split(r",(?![^<\[(]*[>\])])", m.group(1)) if ":" in p)
    found = {}
    for a in lists:
        for b in lists:
            common = lists[a] & lists[b]
            users = [k for k in lists if common <= lists[k]]
            if a != b and len(common) >= 3 and len(users) >= 3:
                for k in users:
                    found[k] = max(found.get(k, frozenset()), common, key=len)
    return sorted((k[0], k[1], f"{k[2]} takes {', '.join(sorted(c))}") for k, c in found.items())


show("1a results and options taken apart and put together again", places(r"Ok\([\w()]*\) => Ok\(|Err\(\w+\) => (?:return )?Err\(|if let Err\(\w+\) = |return Err\((?:e|fault|malformed)\)|None => None,|^\s+Err\(_\) => Err\("))
show("1b enums of our own", places(r"^pub enum |^enum "))
show("2 functions with one shape (each but the first)", twins())
show("2b private functions that differ in a constant", places(r"^(?:pub\(crate\) )?fn refused\("))
show("3 loops that count or step by hand", places(r"^\s+(?:while |loop \{|'\w+: loop)|\+= 1;|let \w+ = '\w+: loop"))
show("3b loops over numbers or with enumerate", places(r"^\s+for [^\n]*(?:\.\.|enumerate)"))
show("3c loops that return from inside", places(r"^\s+for [^\n]*\{\n\s+if [^\n]*\{\n\s+return "))
show("4 conversions, orders and names written as functions", places(r"fn (?:eq|cmp|partial_cmp|is_upto|number|name|place|clone)\("))
show("4b impls of From, TryFrom, Display", places(r"^impl.* (?:From|TryFrom<\w+>|Display|fmt::Display)\b.* for "))
show("5a premises that three functions or more repeat", repeated())
show("5b parameters that three functions take together", together())
show("6 a length or a count beside a buffer", places(r"^\s+pub count: usize|^\s+count: usize|^\s+len: usize"))
show("7 boxed or dynamic values, tables of functions", places(r"\bdyn |\bfn\(|Box<"))
