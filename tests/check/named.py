#!/usr/bin/env python3
"""Checks that what the documents name is there, that crates stand in layers, and that the wrong programs outside the gate still fit the code.

- docs/PROMISES.md: each file, each definition or law named right behind it, and each wrong program; each call of the header, and each function of
  docs/RATTLE.md's table.
- docs/DECISIONS.md: each wrong program, as crate/name.
- docs/ARCHITECTURE.md: each crate is in the table, in the order of crates.txt.
- docs/RATTLE.md: its program is crates/example, which the gate proves and runs. README.md: its program in C is examples/first.c.
- README.md, NEWS.md, CONTRIBUTING.md, docs/: no line of prose is longer than 120 characters, and no link leads nowhere.
- crates.txt: a crate stands below those that it knows, each of which its files name, and the crates of a family, FAMILY and FAMILY_PART, stand together;
  theory, which has no functions, stands below them.
- crates/*/must-fail/*.edit, more-fail/*.edit: the lines that it changes stand in its file, once, and each line behind the first has its word.
- `use` lines of .rt and .antt files: a module is named once, and what is named is used.

    python3 tests/check/named.py

Prints what is missing, and ends with 1 if anything is.
"""
import re
import sys
from pathlib import Path

ROOT = Path(__file__).resolve().parents[2]
CRATES = ROOT / "crates"
EDITS = {(edit.parts[-3], edit.stem) for edit in CRATES.glob("*/m*-fail/*.edit")}


def stands(name, text):
    return re.search(rf"(?<![\w-]){re.escape(name)}(?![\w-])", text) is not None


def promises():
    # a line that begins no item, row or heading goes on with the one before
    text = re.sub(r"(?<!\n)\n *(?!\n| *(?:- |\d+\. |\||#))", " ", (ROOT / "docs/PROMISES.md").read_text())
    cited = r"`([a-z_]+/(?:specs|proofs|src)/[\w/]+\.(?:antt|rt))`(:(?: ?`[^`]+`,?)*)?"
    found = list(re.finditer(cited, text))
    if len(found) < 50:
        yield f"docs/PROMISES.md: only {len(found)} files are cited"
    for match in found:
        file = CRATES / match[1]
        if not file.exists():
            yield f"docs/PROMISES.md: no file {match[1]}"
            continue
        for name in re.findall(r"`([\w-]+)`", match[2] or ""):
            if not stands(name, file.read_text()):
                yield f"docs/PROMISES.md: {match[1]} has no {name}"
    programs = {name for _, name in EDITS} | {crate.name for crate in CRATES.iterdir()}
    ruled = re.findall(r"- Rules out: (.*)", text)
    if len(ruled) < 25:
        yield f"docs/PROMISES.md: only {len(ruled)} contracts name what they rule out"
    for name in re.findall(r"`([a-z0-9_]+)`", " ".join(ruled)):
        if name not in programs:
            yield f"docs/PROMISES.md: no wrong program {name}"


def calls():
    """The calls of the header are promised from C, and the functions of docs/RATTLE.md from Rattle."""
    rattle, c = re.split(r"^### From C$", (ROOT / "docs/PROMISES.md").read_text().split("### From Rattle")[1].split("\n## ")[0], flags=re.M)
    declared = re.findall(r"^\w+ (bauchleton_\w+)\(", (ROOT / "include/bauchleton.h").read_text(), re.M)
    if len(declared) < 40:
        yield f"include/bauchleton.h: only {len(declared)} calls are found"
    for name in declared:
        if not re.search(rf"`{name}[`(]", c):
            yield f"docs/PROMISES.md: no promise of the call {name}"
    for line in re.findall(r"^\| (`\w+::.*?) \|", (ROOT / "docs/RATTLE.md").read_text(), re.M):
        for name in re.findall(r"`(?:\w+::)*(\w+)`", line):
            if not stands(name, rattle):
                yield f"docs/PROMISES.md: no promise of the function {name}"


def decisions():
    text = (ROOT / "docs/DECISIONS.md").read_text()
    for crate, name in re.findall(r"`([a-z_]+)/([a-z0-9_]+)`", text):
        if crate != "tests" and (crate, name) not in EDITS:
            yield f"docs/DECISIONS.md: no wrong program {crate}/{name}"


def listed():
    """The crates of crates.txt with what they know, in its order."""
    for line in (ROOT / "crates.txt").read_text().splitlines():
        name, colon, deps = line.split("#")[0].partition(":")
        if colon:
            yield name.split()[0], deps.split()


def layers():
    seen, families = [], []
    for name, deps in listed():
        text = "".join(file.read_text() for file in (CRATES / name).glob("[sp]*/**/*") if file.suffix in (".rt", ".antt"))
        for dep in (dep for dep in deps if (CRATES / dep).is_dir()):
            if dep not in seen:
                yield f"crates.txt: {name} knows {dep}, which does not stand above it"
            if not re.search(rf"(?<!\w){dep}::|Rattle\.{dep}\.", text):
                yield f"crates.txt: {name} knows {dep}, and names nothing of it"
        seen.append(name)
        if not re.search(r"\bfn ", "".join(file.read_text() for file in (CRATES / name / "src").rglob("*.rt"))):
            continue
        family = name.split("_")[0]
        if family in families[:-1]:
            yield f"crates.txt: {name} stands apart from its family"
        if not families or families[-1] != family:
            families.append(family)
    rows = re.findall(r"^\| (`\w+`(?:, `\w+`)*) \|", (ROOT / "docs/ARCHITECTURE.md").read_text().split("## The crates")[1].split("\n## ")[0], re.M)
    if [name for row in rows for name in re.findall(r"`(\w+)`", row)] != seen:
        yield "docs/ARCHITECTURE.md: its table does not have the crates of crates.txt, in that order"


def uses():
    """Names in `use` lines. An operator `◌+◌` is used where its signs stand."""
    named = re.compile(r"^(?:ghost )?use ([^{;\s]+?)(?:\.\{(.*)\})?(?: as (\S+?))?;?$")
    for file in sorted(file for part in ("src", "specs", "proofs") for file in CRATES.glob(f"*/{part}/**/*")):
        if file.suffix not in (".rt", ".antt"):
            continue
        lines = file.read_text().splitlines()
        found = [match for line in lines if (match := named.match(line))]
        comment = "//" if file.suffix == ".rt" else "--"
        body = "\n".join(re.sub(rf"(?<!\S){comment}.*", "", line) for line in lines if not named.match(line))
        modules = [match[1] for match in found if match[2]]
        for module in sorted({m for m in modules if modules.count(m) > 1}):
            yield f"{file.relative_to(ROOT)}: {module} is named twice"
        for match in found:
            names = match[2].split(", ") if match[2] else [match[3] or match[1].split("::")[-1]]
            for name in names:
                signs = [sign.strip() for sign in name.split(" as ")[-1].split("◌") if sign.strip()]
                if not all(sign in body if not sign[0].isalnum() else re.search(rf"(?<![\w'-]){re.escape(sign)}(?![\w'-])", body) for sign in signs):
                    yield f"{file.relative_to(ROOT)}: {name} is not used"


def example():
    if f"```rust\n{(CRATES / 'example/src/main.rt').read_text()}```" not in (ROOT / "docs/RATTLE.md").read_text():
        yield "docs/RATTLE.md: its program is not crates/example/src/main.rt"
    if f"```c\n{(ROOT / 'examples/first.c').read_text()}```" not in (ROOT / "README.md").read_text():
        yield "README.md: its program in C is not examples/first.c"


def anchors(text):
    """The names that headings of a document have in links."""
    return {re.sub(r"[^\w -]", "", line.lstrip("#").strip().lower()).replace(" ", "-") for line in re.findall(r"^#+ .*", text, re.M)}


def prose():
    """Lines that are too long, tables, blocks of code and what cannot be broken apart; links to files or headings that are not there."""
    files = [ROOT / "README.md", ROOT / "NEWS.md", ROOT / "CONTRIBUTING.md", *sorted((ROOT / "docs").glob("*.md"))]
    for file in files:
        name, text = file.relative_to(ROOT), file.read_text()
        code = False
        for number, line in enumerate(text.splitlines(), 1):
            fence = line.lstrip().startswith("```")
            code ^= fence
            if len(line) > 120 and not (code or fence or line.lstrip().startswith("|")) and " " in re.sub(r"^ *(?:- )?|!?\[[^]]*\]\(.*?\)", "", line):
                yield f"{name}:{number}: {len(line)} characters"
        for link in re.findall(r"\]\(([^)\s]+)\)", text):
            path, _, anchor = link.partition("#")
            target = file.parent / path if path else file
            if not link.startswith("http") and (not target.exists() or anchor and anchor not in anchors(target.read_text())):
                yield f"{name}: no {link}"


def edits():
    """Each `old:` text stands once in its file, as what the pairs before it made of that file."""
    for edit in sorted(CRATES.glob("*/m*-fail/*.edit")):
        made, file, old, is_well = {}, None, None, True
        for line in edit.read_text().splitlines()[1:]:
            key, colon, value = line.partition(":")
            value = value.removeprefix(" ")
            if not colon or key not in ("file", "old", "new"):
                yield f"{edit.relative_to(ROOT)}: a line that begins with none of file:, old:, new:"
            elif key == "file":
                file = edit.parent.parent / value.strip()
            elif key == "old":
                old = value
            elif file is None or not old or not file.is_file() or made.setdefault(file, file.read_text()).count(old) != 1:
                is_well = False
                yield f"{edit.relative_to(ROOT)}: what it changes does not stand once in its file"
            else:
                made[file] = made[file].replace(old, value)
        if is_well and all(text == file.read_text() for file, text in made.items()):
            yield f"{edit.relative_to(ROOT)}: it changes nothing"


missing = [line for check in (promises, calls, decisions, layers, example, prose, uses, edits) for line in check()]
print("\n".join(missing) if missing else "what the documents and the edits name is there")
sys.exit(1 if missing else 0)
