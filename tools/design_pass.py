#!/usr/bin/env python3
"""Counts the places that docs/DESIGN-PASS.md speaks of, in crates/*/src and, for point 8, in crates/*/proofs.

usage: tools/design_pass.py [--names]      --names lists each place; tests (below `#[cfg(test)]`) and crates/rig's exports are left out

1  enums of the shape of Option or Result: one with a case Refused(..), or with two cases of which one is called Nothing, Absent, Outside,
   NoRoom, Full or Bad; and numbers in place of kinds: functions called code, from_code or number, parameters operation, run or side
2  functions whose names differ only in a width, a word for one or a kind: u8 to u64, 8 to 64, 3 or 4, words or halves, matrices or
   indices, rotation or translation, a number of two or more in one file
3  loops by `while`
4  functions that compare, order, copy or convert by hand: their names are in the list below
5  functions that are lent both halves of a section; functions that are lent three or more of the tables by `&mut`
6  functions that are lent a slice and beside it how much of it counts, as a number called n, m, r, t, c, p, count, used, filled, words or k
7  functions with a parameter that says which step to run: a LimitKind, `plain: bool`, operation, run
8  files of answers and their lines
"""
import pathlib
import re
import sys

names = "--names" in sys.argv[1:]
root = pathlib.Path(__file__).resolve().parent.parent / "crates"
sources = []
for path in sorted(root.glob("*/src/*.rt")):
    text = path.read_text().split("#[cfg(test)]")[0]
    sources.append((str(path.relative_to(root)).replace("/src/", "/"), re.sub(r"//[^\n]*", "", text)))

FUNCTION = re.compile(r"\bfn (\w+)(?:<[^(]*>)?\(([^)]*)\)")
BY_HAND = set("same number code from_code lesser least wide lower_half upper_half both_halves both_words lower_word upper_word "
              "saturating_add one_more one_less halves part_rows part_length part_stands stands limit_count byte_or u8_at words3 words4 "
              "floats3 floats4 plain3 plain4 put_digits put_word print_name table".split())
TABLES = set("bones buckets entries inverse local parents children pool pending derived_buckets derived_entries derived_inverse "
             "derived_local derived_parents derived_children dbuckets dentries dinverse dlocal dparents dchildren".split())
LENGTHS = set("n m r t c p k count used filled words".split())


def functions(exports=False):
    for file, text in sources:
        if file.startswith("rig/") and not exports:
            continue
        for m in FUNCTION.finditer(text):
            given = {}
            for part in m.group(2).split(","):
                if ":" in part:
                    name, kind = part.split(":", 1)
                    given[name.strip().removeprefix("mut ")] = kind.strip()
            yield file, m.group(1), given


def show(point, what, places):
    print(f"{point}  {len(places):4}  {what}")
    if names:
        for place in places:
            print(f"         {place}")


enums = []
for file, text in sources:
    for m in re.finditer(r"\benum (\w+)[^{]*\{(.*?)\n\}", text, re.S):
        cases = re.findall(r"^\s{4}(\w+)", m.group(2), re.M)
        unit = set(cases) & set("Nothing Absent Outside NoRoom Full Bad".split())
        if "Refused" in cases or len(cases) == 2 and unit:
            enums.append(f"{file} {m.group(1)}: {', '.join(cases)}")
show(1, "enums of the shape of Option or Result", enums)
show(1, "numbers in place of kinds", [f"{f} {n}" for f, n, g in functions()
                                      if n in ("code", "from_code", "number") or g.get("operation") or g.get("run") or g.get("side")])

stems = {}
for file, name, given in functions():
    stem = re.sub(r"(matrices|indices|rotations?|translations?|inverse|local|parents|children|words|halves|half|sizes|vec)", "*", name)
    stem = re.sub(r"_?\*_?|[ui]?(8|16|32|64)|f32|[34]$", "*", stem)
    stems.setdefault((file.split("/")[0], stem), []).append(f"{file} {name}")
show(2, "functions of one name but for a width or a kind",
     [p for places in stems.values() if len(places) > 1 and any("*" in s for s in [k for k, v in stems.items() if v is places][0][1:]) for p in places])

show(3, "loops by while", [f"{file} {line.strip()}" for file, text in sources for line in text.split("\n") if re.match(r" *while ", line)])
show(4, "conversions and comparisons by hand", [f"{f} {n}" for f, n, g in functions() if n in BY_HAND])
show(5, "functions lent both halves", [f"{f} {n}" for f, n, g in functions() if "sys" in g and "gfx" in g])
show(5, "functions lent three tables or more",
     [f"{f} {n}" for f, n, g in functions() if sum(1 for x in g if x in TABLES and "&mut" in g[x]) > 2])
show(6, "functions lent a slice and how much of it counts",
     [f"{f} {n}" for f, n, g in functions()
      if any(re.match(r"&('\w+ )?(mut )?\[", k) for k in g.values()) and any(x in LENGTHS and k == "usize" for x, k in g.items())])
show(7, "functions told which step to run",
     [f"{f} {n}" for f, n, g in functions() if "LimitKind" in g.values() or g.get("plain") == "bool" or g.get("operation") or g.get("run")])
answers = sorted(root.glob("*/proofs/**/Answers.antt"))
print(f"8  {len(answers):4}  files of answers, {sum(len(a.read_text().splitlines()) for a in answers)} lines")
