#!/usr/bin/env python3
"""respell_pages.py: brings the names in backticks of the documents to the spelling that respell.py gave the crates, once.

A name is turned where nothing in crates/ is called so any more and its new name of respell.tsv, or of port.py, is declared. Of CHANGES.md the newest note alone
is turned, and docs/HISTORY.md not at all: they speak of what was there then.
"""
import importlib.machinery, importlib.util, os, re

HERE = os.path.dirname(os.path.dirname(os.path.abspath(__file__)))
loader = importlib.machinery.SourceFileLoader("documents", f"{HERE}/scripts/check-documents")
text = open(loader.path, encoding="utf-8").read().replace("\nsys.exit(main(sys.argv[1:]))\n", "\n").replace(
    "os.path.abspath(__file__)", f"{loader.path!r}")
documents = {"__name__": "documents"}
exec(compile(text, loader.path, "exec"), documents)
tree = documents["Tree"](HERE)
rows = [line.rstrip("\n").split("\t") for line in open(f"{HERE}/tools/respell.tsv", encoding="utf-8")]
names = {row[0]: row[1] for row in rows}
TOKEN = re.compile(r"[A-Za-z][A-Za-z0-9_′-]*")


def turned(m):
    """one name; what is declared as it stands stays"""
    old = m[0]
    new = names.get(old) or re.sub(r"(?<=[a-z0-9])([A-Z])", lambda x: "_" + x[1].lower(), old).replace("-", "_").replace("′", "'")
    return new if old not in tree.names and new in tree.names else old


def page(text):
    return re.sub(r"`[^`\n]+`", lambda m: TOKEN.sub(turned, m[0]), text)


for path in documents["documents"](HERE):
    if path in ("docs/HISTORY.md", "docs/PORT.md"):
        continue
    old = documents["read"](HERE, path)
    note = documents["newest_note"](old) if path == "CHANGES.md" else old
    new = old.replace(note, page(note), 1)
    if new != old:
        with open(os.path.join(HERE, path), "w", encoding="utf-8") as f:
            f.write(new)
