#!/usr/bin/env python3
"""Spells the names of this repository's own definitions and lemmas in snake case, those of facts in camel case.

usage: tools/respell.py [--check]     at the top of the repository, once, after the kit's script had turned it

A dash or a capital inside a name that specs/ or proofs/ declare becomes an underscore. A name that a file takes from
another library stays in that file, and so do the names that the check makes (goals and steps). Where two names of one
file would fall together, the script stops before it writes anything.
"""
import glob, re, sys

WORD = r"[^\s(){}\[\].,;:@\"«»|]+"
DECLARED = re.compile(rf"^( *)((?:(?:abbrev|unfoldable|pub|record|data) )*)({WORD})((?: [({{][^\n]*?)?) : ", re.M)
GOAL_FILE = re.compile(r"/proofs/(?:.*/)?(?:Answers|Invariants|Choices)\.antt$")
OURS = set()
# Names that are given: facts that had a dash, and names that would else be those of a function, a lemma or a field beside them.
GIVEN = {
    "Malformed-here": "IsMalformedHere",
    "Out-of-range": "IsOutOfRange",
    "messageValues": "values_of_message",
    "lastStart": "last_start_of",
    "last-start": "planned_last_start",
    "periodicIn": "periodic_of_line",
    "windowIn": "window_of_line",
    "bookOf": "book_of_lines",
    "faultText": "text_of_fault",
    "rowText": "text_of_row",
    "sheetText": "text_of_sheet",
    "lowerShare": "share_of_lower",
    "urgentShare": "share_of_urgent",
    "latestOf": "latest_start_of",
    "isDigit": "is_ascii_digit",
    "atMessage": "fault_at_message",
    "madeFault": "fault_of_making",
    "sheetCases": "cases_of_sheets",
    "startFits": "is_start_in_range",
    "row-at": "row_at_place",
    "row-of": "planned_row_of",
    "first-of": "first_found",
    "in-range": "within_range",
    "in-turn": "its_turn",
    "nothing-lost": "nothing_lost_in_run",
    "ends-within": "ends_within_segment",
    "starts-as-node": "starts_as_its_node",
    "ofFrame": "is_of_frame",
}
# Fields that may share their name with a ghost field of another type.
FIELDS = {"one-node", "one-priority"}


def snake(name):
    words = re.sub(r"(?<=[a-z0-9])([A-Z])", lambda m: "_" + m[1].lower(), name.replace("-", "_")).replace("′", "'")
    return re.sub(r"__+", "_", words)


def odd(name):
    return name[0].islower() and name[0].isascii() and re.search(r"-|[a-z0-9][A-Z]|′", name) and re.fullmatch(r"[\w'′-]+", name)


def read(path):
    return open(path, encoding="utf-8").read()


crates = [p.split("/")[1] for p in glob.glob("crates/*/src")]
antt = sorted(glob.glob("crates/*/specs/**/*.antt", recursive=True) + glob.glob("crates/*/proofs/**/*.antt", recursive=True))
code = sorted(glob.glob("crates/*/src/**/*.rt", recursive=True))
texts = {p: read(p) for p in antt + code}

table = dict(GIVEN)
for p in antt:
    for m in DECLARED.finditer(texts[p]):
        name, after = m[3], texts[p][m.end() : m.end() + 8]
        if GOAL_FILE.search(p) and (after.startswith("goal.") or after.startswith("need.") or after.startswith("given.")):
            continue
        if odd(name):
            table.setdefault(name, snake(name))
for p in antt:
    for m in re.finditer(rf"^  ({WORD}) : ", texts[p], re.M):
        if odd(m[1]) and not GOAL_FILE.search(p):
            table.setdefault(m[1], snake(m[1]))


def taken_from_others(text):
    names = set()
    for m in re.finditer(r"\buse ([^\s;{]+?)\.?(?:\{([^}]*)\})?(?: as \S+)?;?$", text, re.M):
        steps = m[1].split(".")
        ours = steps[0] == "Rattle" and len(steps) > 1 and steps[1] in crates
        if not ours and m[2]:
            names.update(x.strip().split(" as ")[-1].strip("«» ") for x in m[2].split(","))
    return names


def respell(path, text):
    stay = taken_from_others(text)
    mine = {o: n for o, n in table.items() if o not in stay}
    words = re.findall(WORD, text)
    have = set(words)
    clash = [(o, n) for o, n in mine.items() if o in have and n in have and o not in FIELDS]
    if path.endswith(".rt"):
        # clauses, ghost items and comments only: nothing else of Rust's has a dash inside a name
        pattern = re.compile(r"(?<![\w'-])([\w'′-]+)(?![\w'-])")
    else:
        pattern = re.compile(rf"({WORD})")

    made = GOAL_FILE.search(path)

    def turn(m):
        w = m[1]
        if w not in mine:
            return w
        before = text[: m.start()]
        if made and re.search(r"\b(?:goal|c|l|w|need|given)\.$", before[-8:]):
            return w
        return mine[w]

    out = pattern.sub(turn, text)
    return out, clash


clashes, new = [], {}
for p, t in texts.items():
    new[p], c = respell(p, t)
    clashes += [(p, o, n) for o, n in c]
for p, o, n in clashes:
    print(f"would fall together: {o} and {n} in {p}")
twice = {}
for o, n in table.items():
    twice.setdefault(n, []).append(o)
for n, os_ in twice.items():
    if len(os_) > 1:
        print(f"two names for {n}: {os_}")
if "--check" in sys.argv or clashes:
    print(f"{len(table)} names")
    sys.exit(1 if clashes else 0)
for p in texts:
    if new[p] != texts[p]:
        open(p, "w", encoding="utf-8").write(new[p])
print(f"{len(table)} names respelled")
