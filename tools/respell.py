#!/usr/bin/env python3
"""Spells the definitions, fields and lemmas of specs/ and proofs/ as today's Rattle does: words in snake case, a dash between two names.

usage: python3 -B tools/respell.py [--check]      at the top of the repository, once, after port.py

    flipAll -> flip_all, sumWord-bits -> sum_word-bits, info-below -> info_below

A dash stays between two parts that are both names of definitions, types or operators; any other becomes an underscore. Types, modules and
constructors that begin with a capital stay, and so does every name of src/. A name stays where its new spelling is taken. The names change in .antt
and .rt files, in must-fail/ and more-fail/, and in the pages, there between backquotes and in the lists at the head of a file. --check writes nothing.
"""
import collections
import os
import re
import sys

NAME = r"[^\s(){}.;,@\"«»`]+"
QUIET = re.compile(r'"(?:[^"\\\n]|\\.)*"|(?<![^\s(){}.;,@"«»])--[^\n]*|\{-.*?-\}', re.S)
DECLARED = re.compile(r"(?m)^( *)(?:(?:pub|abbrev|unfoldable|pattern|axiom|record|data) )*(%s)((?: [({][^(){}\n]*[)}])*) :(?= |$)" % NAME)
CLAUSE = re.compile(r"(?s)(?:requires|ensures)\s*\*?\s*(?:\w+\s*)?\{|ghost\s*(?:\w+\s*:\s*)?\{|ghost use [^;]*;")
HUMP = re.compile(r"(?<=[a-z0-9])[A-Z]")
# Names that would meet a definition's new spelling: in these files they give way first.
GIVE_WAY = {
    "crates/words_lines/proofs/Lines.antt": ("block_reads", "block_reads_lem"),
    "crates/staircase/proofs/Packed.antt": ("packed_byte", "packed_byte_lem"),
    "crates/text/proofs/MakeKitThenFrame.antt": ("packed_byte", "packed_byte_lem"),
    "crates/text/proofs/FrameParts.antt": ("group_lines", "group_lines_lem"),
    "crates/text_frame/proofs/Calls.antt": ("group_lines", "group_lines_lem"),
    "crates/words/proofs/check_received/Proof.antt": ("frameSmall", "frame_small_here"),
}
# Words of the library that a lemma may be named after, beside those that files import.
OPERATORS = set("add sub mul div mod pow le lt eq suc length append take drop set get_or map sum concat reverse min max not and or xor".split())


def files(top, ends):
    for folder, below, names in os.walk(top):
        below[:] = sorted(it for it in below if it not in ("out", "target", ".git"))
        yield from (os.path.join(folder, it) for it in sorted(names) if it.endswith(ends))


def read(path):
    with open(path, encoding="utf-8") as it:
        return it.read()


def code_of(text):
    return QUIET.sub(" ", text)


def clauses_of(text):
    out = []
    for found in CLAUSE.finditer(text):
        if found[0].endswith(";"):
            out.append(found[0])
            continue
        depth, at = 1, found.end()
        while depth and at < len(text):
            depth += {"{": 1, "}": -1}.get(text[at], 0)
            at += 1
        out.append(text[found.end() : at - 1])
    return "\n".join(out)


def humps(word):
    return HUMP.sub(lambda it: "_" + it[0].lower(), word) if word[:1].islower() or not word[:1].isalpha() else word


def main():
    antt = [it for it in files("crates", ".antt")]
    texts = {it: read(it) for it in antt}
    first = dict(texts)
    for path, (old, new) in GIVE_WAY.items():
        texts[path] = re.sub(NAME, lambda it: new if it[0] == old else it[0], texts[path])
    codes = {it: code_of(text) for it, text in texts.items()}
    rust = {it: read(it) for it in files("crates", ".rt")}
    declared, defined, imported = set(), set(), set()
    for path, code in codes.items():
        names = {it[2] for it in DECLARED.finditer(code)}
        if not path.endswith("/Proof.antt"):
            declared |= names
        if "/specs/" in path:
            defined |= names
        for path_of, items in re.findall(r"(?m)^ *use (\S+?)\.\{([^}]*)\}", code):
            if not path_of.startswith("Rattle.") or path_of.startswith("Rattle.std"):
                imported |= {it.split(" as ")[0].strip() for it in items.split(",")}
    tokens = collections.Counter()
    unqualified = collections.defaultdict(set)
    for path, code in codes.items():
        for found in re.finditer(NAME, code):
            tokens[found[0]] += 1
            if code[found.start() - 1 : found.start()] != ".":
                unqualified[found[0]].add(path)
    spelled = {humps(it) for it in defined} | defined | imported | OPERATORS

    def is_name(part):
        return part in spelled or part[:1].isupper() or not re.match(r"\w", part)

    def new_of(word):
        parts = [humps(it) for it in word.split("-")]
        out = parts[0]
        for before, part in zip(parts, parts[1:]):
            dash = before and part and is_name(before) and is_name(part)
            out += ("-" if dash or not before or not part else "_") + part
        return out

    words = {it for it in tokens if HUMP.search(it) and it[:1].islower()}
    words |= {it for it in declared if "-" in it and it != "→" and re.search(r"\w-|-\w", it)}
    # A name that some file takes from a library stays, also where it is one of ours.
    table = {it: new_of(it) for it in words - imported}
    table = {old: new for old, new in table.items() if old != new and not old.startswith("Rattle")}
    # A new spelling that is taken: the dashes stay, the humps go.
    said = []
    in_rust = set(re.findall(r"\b(?:fn|const|static|mod) (\w+)", "\n".join(rust.values())))
    while True:
        made = collections.Counter(table.values())
        bad = [old for old, new in table.items() if made[new] > 1 or (new in tokens and unqualified[new] and new not in table) or new in in_rust and "-" in old]
        bad = [old for old in bad if table[old] != "-".join(map(humps, old.split("-")))]
        if not bad:
            break
        for old in bad:
            said.append(f"stays apart: {old} (not {table[old]})")
            table[old] = "-".join(map(humps, old.split("-")))
            if table[old] == old:
                del table[old]
    for old, new in sorted(table.items()):
        both = [it for it in unqualified[new] if it in unqualified[old]] if new in tokens else []
        if both:
            said.append(f"look: {old} -> {new} is in {both[0]} already")
        if new in in_rust:
            said.append(f"function: {old} -> {new}")
    for path, text in rust.items():
        code = re.sub(r"//[^\n]*", "", text)
        own = set(re.findall(r"\b([a-z]\w*)\s*:", CLAUSE.sub(" ", code))) | set(re.findall(r"let (?:mut )?(\w+)", code))
        for found in set(re.findall(NAME, clauses_of(code))):
            if table.get(found) in own:
                said.append(f"parameter: {found} -> {table[found]} in {path}")

    swap = lambda text: re.sub(NAME, lambda it: table.get(it[0], it[0]), text)
    listed = re.compile(r"(?m)^(?:--|//)   (?:\S+(?:, \S+)*)(?=   |$)")

    def comment(text):
        text = re.sub(r"`[^`\n]+`", lambda it: swap(it[0]), text)
        return listed.sub(lambda it: swap(it[0]), text)

    def whole(text, is_antt):
        if is_antt:
            out, at = "", 0
            for found in QUIET.finditer(text):
                out += swap(text[at : found.start()]) + (found[0] if found[0][0] == '"' else comment(found[0]))
                at = found.end()
            return out + swap(text[at:])
        out, at = "", 0
        for found in re.finditer(r"//[^\n]*", text):
            out += swap(text[at : found.start()]) + comment(found[0])
            at = found.end()
        return out + swap(text[at:])

    changed = 0
    for path in [*texts, *rust, *files("crates", ".edit"), *files(".", ".md")]:
        text = texts[path] if path in texts else read(path)
        was = first.get(path, text)
        if path.endswith(".edit"):
            new = re.sub(r"(?m)^(?:old|new): .*", lambda it: swap(it[0]), text)
        elif path.endswith(".md"):
            new = re.sub(r"`[^`\n]+`", lambda it: swap(it[0]), text)
        else:
            new = whole(text, path.endswith(".antt"))
        if new != was:
            changed += 1
            if "--check" not in sys.argv:
                with open(path, "w", encoding="utf-8") as it:
                    it.write(new)
    print(*said, sep="\n")
    print(f"{len(table)} names, {changed} files")


if __name__ == "__main__":
    main()
