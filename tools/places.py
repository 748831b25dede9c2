#!/usr/bin/env python3
"""tools/places.py [COMMIT]: counts the places of docs/DESIGN-PASS.md in crates/*/src, here or at a commit.

For each point it prints how many lines a pattern finds, and with --list the lines. A pattern finds candidates: which of them
are places, and what became of each, stands in docs/DESIGN-PASS.md.
"""
import re, subprocess, sys, glob, collections

args = [a for a in sys.argv[1:] if a != "--list"]
show = "--list" in sys.argv
if args:
    names = subprocess.run(["git", "ls-tree", "-r", "--name-only", args[0], "crates"], capture_output=True, text=True, check=True).stdout.split()
    def read(n): return subprocess.run(["git", "show", f"{args[0]}:{n}"], capture_output=True, text=True, check=True).stdout
else:
    names = [n for n in glob.glob("crates/**/*", recursive=True) if "/out/" not in n]
    def read(n): return open(n).read()
source = {n: read(n) for n in sorted(names) if re.match(r"crates/\w+/src/.*\.rt$", n) and not n.endswith("tables.rt")}
answers = {n: read(n) for n in sorted(names) if re.match(r"crates/\w+/proofs/.*/Answers\.antt$", n)}

CONSTS = ("DONE POOL_LENGTH NOT_WELL_FORMED BAD_BATCH REPLY_SPACE BAD_ORDER BAD_ENTRY BAD_MARK FIRST_ABOVE_LAST NO_BUDGET ABSENT "
          "TOO_FEW_NODES ENDED PAUSED NOT_ALIGNED COVERED BAD_KEY BAD_SCRIPT BAD_GATE NO_TOTAL PART_ABOVE_TOTAL").replace(" ", "|")
LINES = [
    ("1 own enums", r"^\s*(pub )?enum \w+"),
    ("1 answers by number (a constant, or a struct literal with one)", rf"(?<![:\w])({CONSTS})\b"),
    ("1 a flag beside a value", r"^\s+(pub )?is\w*: bool,"),
    ("1 comments that say which number means none", r"^\s*//.*(\b0 (where|if)\b|\b0 says\b|; \w+ (if|where) (there is none|it has none|none)|if there is none|none below it; \w+|where there is none|else NOT_PLAIN|; 24 if|, or 0 (if|where))"),
    ("2 and 4 arms that do the same, one by one (a line `X::Y => same` after another)", None),
    ("3 loops", r"^\s*(while\b.*|loop) \{$"),
    ("3 an index counted by hand", r"^\s+(\w+) = \1 [+-] 1;|^\s+\w+ [+-]= 1;"),
    ("3 for loops", r"^\s*for\b.* in .*\{"),
    ("3 iterators and slice methods", r"\.(iter|iter_mut|any|all|position|fold|zip|fill|copy_from_slice|partition_point|as_chunks|windows|chunks\w*|rev|enumerate|find|take_while|skip|map|filter|sum|count)\("),
    ("4 derives", r"^\s*#\[derive\("),
    ("4 derives of PartialEq", r"^\s*#\[derive\(.*PartialEq"),
    ("4 impls (From, TryFrom, methods)", r"^\s*impl\b"),
    ("4 `x: x` in a literal", r"^\s+(\w+): \1,"),
    ("4 casts of a test to a number", r"\) as u(8|16|64)\b"),
    ("1 and 4 Option", r"-> Option<"),
    ("1 and 4 Result", r"-> Result<"),
    ("1 `?`", r"\?;|\?\)"),
    ("1 let-else", r"^\s*let Some\(.*else \{"),
]
FACTS = ["WellFormed pool", "Sound map", "FreeMap pool", "HasNode ", "Holds index", "row_count_in_bounds", "last_place", "Storable", "BlankMap"]

def same_arms():
    n = 0
    for s in source.values():
        last = None
        for l in s.splitlines():
            m = re.match(r"\s+\w+::\w+(?:\(.*?\)|\s*\{.*?\})? => (.*),$", l)
            if m and last == m.group(1): n += 1
            last = m.group(1) if m else None
    return n

for name, pattern in LINES:
    if pattern is None:
        print(f"{same_arms():5}  {name}"); continue
    found = [(n, i, l) for n, s in source.items() for i, l in enumerate(s.splitlines(), 1) if re.search(pattern, l)]
    print(f"{len(found):5}  {name}")
    if show:
        for n, i, l in found: print(f"         {n[7:]}:{i}: {l.strip()[:110]}")
for fact in FACTS:
    n = sum(1 for s in source.values() for c in re.split(r"\n(?=\s*(?:pub )?(?:extern \"C\" )?fn )", s)[1:] if re.search(r"(requires|ensures)[^\n]*" + re.escape(fact), c.split("\n{\n")[0].split("\n    {\n")[0]))
    print(f"{n:5}  5 contracts with `{fact.strip()}`")
print(f"{sum(len(re.findall(r'fn [^(]*[(][^)]*index: &[^)]*order: &[^)]*word: &[^)]*marks: &', s, re.S)) for s in source.values()):5}  5 and 6 functions that take the four slices of the plain engine")
print(f"{sum(len(re.findall(r': goal[.]', s)) for s in answers.values()):5}  8 answers in {len(answers)} files")
