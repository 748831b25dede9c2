#!/usr/bin/env python3
"""respell.py: brings the repository's own definitions and lemmas to the spelling of today's Rattle, once, after port.py.

Words are in snake case: `wordBits` is word_bits, `word-on` is word_on. respell.tsv has each old name with its new one, and a third word:
'field' is also turned behind a dot in a function's own proof file, where a dot else leads to what Rattle makes; 'proofs' is a lemma whose
name a definition takes, so it is turned in .antt files alone. A lemma that would have a definition's or a function's name gets _lem.
`result` of answers is result_of, since `result` is what a function returns. Names of src/ stay, and so do exports, strings and data.
Two forms of clauses that port.py leaves are turned as well: one that names the returned value by a λ, and a bound by a slice's len().
"""
import glob, os, re

HERE = os.path.dirname(os.path.abspath(__file__))
os.chdir(os.path.dirname(HERE))
rows = [line.rstrip("\n").split("\t") + [""] for line in open(f"{HERE}/respell.tsv")]
names = {r[0]: (r[1], r[2]) for r in rows}
TOKEN = re.compile(r"[^\s(){}\[\].,;:λ→×⌜⌝«»⟦⟧\"`|&<>=+*/!]+")
OWN = ("Proof.antt", "Answers.antt", "Invariants.antt")


def turn(text, keep):
    """text with each token turned, but for those that keep(old, kind, start) holds of"""
    def one(m):
        new, kind = names.get(m[0], (m[0], ""))
        return m[0] if new == m[0] or keep(m[0], kind, m.start(), text) else new
    return TOKEN.sub(one, text)


def behind_dot(start, text):
    return start > 0 and text[start - 1] == "."


def in_lemmas(old, kind, start, text):
    return kind == "proofs" and behind_dot(start, text)


def in_walks(old, kind, start, text):
    if not behind_dot(start, text) or ("-" not in old and kind != "proofs"):
        return False
    owner = re.search(r"([^\s(){}\[\].,;]+)\.$", text[:start])
    return kind != "field" and not (owner and owner[1][0].isupper())


def in_rust(old, kind, start, text):
    return kind == "proofs" or "-" in old


def antt(path):
    keep = in_walks if path.endswith(OWN) else in_lemmas
    out = []
    for line in open(path):
        code, dash, said = line.partition("--")
        said = turn(said, lambda old, kind, start, text: "-" in old or kind == "proofs")
        code = re.sub(r"(Answers\.\{(?:[^}]*, )?)result(?=[,}])", r"\1result_of", turn(code, keep))
        code = re.sub(r"(?<![.\w-])result(?![\w.}-])(?=( \(?[\w(]|  *:))", "result_of", code) if in_answers else code
        out.append(code + dash + said)
    return "".join(out)


for path in sorted(glob.glob("crates/*/specs/**/*.antt", recursive=True) + glob.glob("crates/*/proofs/**/*.antt", recursive=True)):
    text = open(path).read()
    in_answers = re.search(r"Answers\.\{([^}]*, )?result[,}]", text) or path == "crates/answers/specs/Answers.antt"
    new = antt(path)
    if new != text:
        open(path, "w").write(new)
def unbound(m):
    """a clause without its λ: what it bound is `result`"""
    said = re.sub(r"(?<![.\w])result(?= [\w(])", "result_of", m[3])
    if m[2] != "_":
        said = re.sub(rf"(?<![.\w'-]){m[2]}(?![\w'-])", "result", said)
    return f"ensures{m[1] or ''} {{ {said} }}"


def by_length(text):
    """bounds by len() as bounds by the list's length: what a &mut holds as the call begins is .old, and behind a & it is .now"""
    out, lent = [], {}
    for line in text.split("\n"):
        if re.match(r"\s*(pub )?(extern \"C\" )?(unsafe )?fn ", line):
            lent = {}
        lent.update({name: "old" if kind == "&mut" else "now" for name, kind in re.findall(r"(\w+): (&mut|&)", line)})
        m = re.match(r"(\s*requires)\*( \w+)? \{ do ⌜ (.*) \(← ⟦(\w+)\.len\(\)⟧\) ⌝ \}$", line)
        if m:
            line = f"{m[1]}{m[2] or ''} {{ {m[3]} length {m[4]}.{lent[m[4]]} }}"
        out.append(line)
    return "\n".join(out)


for path in sorted(glob.glob("crates/*/src/*.rt")):
    text = open(path).read()
    text = re.sub(r"ensures\*?( \w+)? \{ λ (\w+)\. ⌜ (.*?) ⌝ \}", unbound, text, flags=re.S)
    text = by_length(text)
    text = text.replace("    requires* { ⌜ HasNode n pool.now ⌝ ∗ do ⌜ (← ⟦s.len()⟧) ≡ slots ⌝ }",
                        "    requires has_node { HasNode n pool.now }\n    requires s_len { length s.old ≡ slots }")
    new = re.sub(r"(Answers\.\{(?:[^}]*, )?)result(?=[,}])", r"\1result_of", turn(text, in_rust))
    open(path, "w").write(new.replace("specs.Contracts.", "specs.Promised."))

# specs/contracts is a module that Rattle makes
old, new = "crates/execute/specs/Contracts.antt", "crates/execute/specs/Promised.antt"
if os.path.exists(old):
    os.rename(old, new)
for path in glob.glob("crates/*/specs/**/*.antt", recursive=True) + glob.glob("crates/*/proofs/**/*.antt", recursive=True):
    text = open(path).read()
    turned = text.replace("execute.specs.Contracts", "execute.specs.Promised")
    if path == "crates/execute/specs/Lib.antt":
        turned = turned.replace("mod Contracts\n", "mod Promised\n")
    if turned != text:
        open(path, "w").write(turned)
