#!/usr/bin/env python3
"""Brings the names of specs/ and proofs/ to one spelling: types in camel case, all else in snake case.

Run once at the top of the repository, right after the toolchain's own respelling. A dash stays where it joins the
name of a definition to another name, as in read_kind-kind_byte. Names that the toolchain makes (goals, steps,
invariants) and all names of src/ stay. Where two names would fall together, KEPT_APART says what the second is called.
"""
import glob
import re
import sys
from collections import defaultdict

WORD = r"[^\s:(){}\[\].,;=|⌜⌝]+"
KEPT_APART = {
    "None-from": "NoneAtOrPast",
    "getD-in-use": "get_or-front",
    "getD-inUse": "get_or-in_use",
    "getD-map-all": "get_or-map_all",
    "getD-removed": "get_or-removed",
    "getD-shifted": "get_or-shifted",
    "goesOn": "goes_on_to",
    "low-high": "low_high_is",
    "minuteMoves": "moves_by_minute",
    "move-at": "timed_move_at",
    "move-into": "move_into-is",
    "move-out-of": "move_out_of-is",
    "stage_at": "timed_stage_at",
    "no_move": "no_move_line",
    "rule-at": "rule_at-formed",
    "until-signs": "until_plainly",
    "Dead-end": "IsDeadEnd",
    "moveRoom": "room_for_moves",
    "stageRoom": "room_for_stages",
}
# A proof that bears the name of the function whose contract is its theorem.
THEOREMS = """all-walks cap-cuts chosen-of-all cut-refines edits-tidy endless-is-greatest join-refines lines-stand lines-tell
minute-refines one-outcome one-reading outcomes-complete outcomes-exclusive refined-alike refinement-keeps same-verdicts
test-right worked-cases""".split()
GOAL = re.compile(r"^(returns|invariant|decreases|loop|overflow|bounds|in_|else|then)\b")


def files():
    for part in ("specs", "proofs"):
        yield from sorted(glob.glob(f"crates/*/{part}/**/*.antt", recursive=True))


def declared(path):
    """The names that a file declares, and whether each is the answer to a goal."""
    inside = False
    lemmas = re.fullmatch(r"crates/\w+/(specs|proofs)/\w+\.antt", path)
    for line in open(path, encoding="utf-8"):
        if re.match(r"^\s*--", line):
            continue
        found = re.match(rf"^(?:(?:pub|abbrev|unfoldable|mutual)\s+)*(?:data|record|ruleset)\s+(?:pub\s+)?({WORD})", line)
        if found:
            yield found.group(1), False
            inside = True
            continue
        found = re.match(rf"^(?:(?:pub|abbrev|unfoldable)\s+)*({WORD}(?:\s+{WORD})*)(?:\s+\{{ℓ\}})?\s+:\s*(.*)", line)
        if found:
            for name in found.group(1).split():
                yield name, found.group(2).startswith("goal.")
            inside = False
            continue
        found = re.match(rf"^ {{2,8}}(?:(?:pub|abbrev|unfoldable)\s+)*({WORD}(?:\s+{WORD})*)\s+:\s", line)
        if found and (inside or lemmas):
            for name in found.group(1).split():
                yield name, False
        elif line.strip() and not line.startswith(" "):
            inside = False


def snake(word):
    return re.sub(r"(?<=[a-zA-Z0-9])([A-Z])", lambda m: "_" + m.group(1).lower(), word)


def respelled(name):
    if name in KEPT_APART:
        return KEPT_APART[name]
    if name in THEOREMS:
        return name.replace("-", "_") + "_lem"
    if name[0].isupper() and len(name.split("-")[0]) > 1:
        return "".join(part[0].upper() + part[1:] for part in name.split("-"))
    parts = name.split("-")
    if any(re.search(r"[a-z0-9][A-Z]", part) for part in parts):
        return "-".join(snake(part) for part in parts)
    return "_".join(parts)


def names():
    seen, goals = set(), set()
    for path in files():
        for name, is_goal in declared(path):
            (goals if is_goal else seen).add(name)
    changed = {}
    for name in seen - goals:
        if name not in KEPT_APART and (not re.search(r"[a-z0-9][A-Z]|-|′", name) or GOAL.match(name)):
            continue
        new = respelled(name)
        if new != name and (len(name.split("-")[0]) > 1 or name[0].islower()):
            changed[name] = new
    return seen, changed


def turned(text, changed, code):
    def one(found):
        return changed.get(found.group(0), found.group(0))

    out = []
    for line in text.split("\n"):
        mark = "//" if code else "--"
        head, sep, tail = line.partition(mark) if line.lstrip().startswith(mark) or f" {mark} " in line else (line, "", "")
        out.append(re.sub(WORD, one, head) + sep + tail)
    return "\n".join(out)


def main():
    seen, changed = names()
    if "--by" in sys.argv:  # the names as a list gives them: for files that came in after the run
        lines = open(sys.argv[sys.argv.index("--by") + 1], encoding="utf-8").read().splitlines()
        seen, changed = set(), dict(line.split() for line in lines)
    back = defaultdict(set)
    for old, new in changed.items():
        back[new].add(old)
    stay = seen - changed.keys()
    together = {new: olds | ({new} & stay) for new, olds in back.items() if len(olds | ({new} & stay)) > 1}
    if together:
        for new, olds in sorted(together.items()):
            print("fall together:", new, sorted(olds))
    paths = list(files()) + sorted(glob.glob("crates/*/src/**/*.rt", recursive=True))
    for path in paths:
        text = open(path, encoding="utf-8").read()
        words = set(re.findall(WORD, text))
        for old in words & changed.keys():
            if changed[old] in words:
                print("look: a word of this file already:", path, old, changed[old])
    if together:
        sys.exit("nothing written")
    for path in paths:
        text = open(path, encoding="utf-8").read()
        new = turned(text, changed, path.endswith(".rt"))
        if new != text:
            open(path, "w", encoding="utf-8").write(new)
    print(len(changed), "names respelled")
    if "--list" in sys.argv:
        for old, new in sorted(changed.items()):
            print(old, new)


main()
