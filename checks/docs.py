"""Looks over the documents, at the top of the repository: `python3 checks/docs.py`.

Each crate of crates.txt is on the map, docs/ARCHITECTURE.md, and has a README of its own; each document is named in the README or in
docs/ARCHITECTURE.md; each file that a document names is there; and each name that a crate's README gives as code stands in
the code or the definitions of some crate. It prints what isn't so, and ends with status 1 then.
"""
import re
import sys
from pathlib import Path

wrong = []


def text_of(path):
    return Path(path).read_text(encoding="utf-8")


def names_in(text):
    return set(re.findall(r"[A-Za-z_][A-Za-z0-9_]*", text))


readme = text_of("README.md")
map_of_crates = text_of("docs/ARCHITECTURE.md")

crates = [line.split(":")[0].split()[0] for line in text_of("crates.txt").splitlines() if line and line[0] != "#"]
for crate in crates:
    if crate not in names_in(map_of_crates):
        wrong.append(f"docs/ARCHITECTURE.md doesn't name the crate {crate}")
    if not Path(f"crates/{crate}/README.md").is_file():
        wrong.append(f"crates/{crate} has no README.md")

for document in sorted(Path("docs").glob("*.md")):
    named = f"docs/{document.name}" in readme + map_of_crates
    if not named and document.stem not in readme.split("`docs/`")[-1]:
        wrong.append(f"{document} is named neither in README.md nor in docs/ARCHITECTURE.md")

code = set()
for folder in ("src", "specs", "proofs"):
    for path in Path("crates").glob(f"*/{folder}/**/*"):
        if path.suffix in (".rt", ".antt"):
            code |= names_in(text_of(path))

documents = [Path("README.md"), *sorted(Path("docs").glob("*.md")), *sorted(Path("crates").glob("*/README.md"))]
for document in documents:
    text = text_of(document)
    for path in sorted(set(re.findall(r"(?:docs|crates|checks|bench)/[A-Za-z0-9_./]*[A-Za-z0-9_]", text))):
        if "NAME" not in path and not Path(path).exists():
            wrong.append(f"{document} names {path}, which isn't there")
    if document.parent.parent.name != "crates":
        continue
    for path in sorted(set(re.findall(r"`((?:src|specs|proofs)/[A-Za-z0-9_./]+)`", text))):
        if not (document.parent / path).exists():
            wrong.append(f"{document} names {path}, which isn't there")
    for name in re.findall(r"`([A-Za-z_][A-Za-z0-9_]*)`", text):
        if name not in code and name not in crates:
            wrong.append(f"{document} names {name}, which is nowhere in the code")

for it in wrong:
    print(f"checks/docs.py: {it}", file=sys.stderr)
sys.exit(1 if wrong else 0)
