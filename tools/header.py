#!/usr/bin/env python3
"""What the build takes from include/bauchleton.h.

    tools/header.py HEADER names          prints the names of the calls, sorted, one a line
    tools/header.py HEADER map            prints the version script of the shared library, which exports these names and no other
    tools/header.py HEADER pages FOLDER   writes a manual page of section 3 for each call to FOLDER

A page is made from a call's declaration, the comment above it and the comment at the start of its section. A call's comment has a sentence that says what
it does, further sentences, a sentence "Rules .." with these in the order in which they are asked, and then lines on lengths and on what is reported.
"""
import re
import sys
from pathlib import Path

VERSION = re.compile(r'BAUCHLETON_VERSION_TEXT "(([^".]+)[^"]*)"')
RULE = re.compile(r"(BAUCHLETON_\w+) = (\d+),?\s*/\* (.*?): (.*?) \*/")
PIECE = re.compile(r"/\*\s*(?P<comment>.*?)\s*\*/|^(?P<declaration>(?:uint64_t|size_t) (?P<name>bauchleton_\w+)\([^;]*\);)", re.S | re.M)
SECTION = re.compile(r"---- (.*?) ----\s*(.*)", re.S)
REPORTED = re.compile(r"\n\s*(?=(?:info, red, )?(?:work|report|answer)(?:, (?:bytes|\d+ entr(?:y|ies)))?: )")
RULES = re.compile(r" Rules? ([^.]*)\.$")


def joined(text):
    return " ".join(text.split())


class Call:
    """A call: its name and declaration, its sentences, its rules in their order, its lines on lengths and reports, and its section's comment."""

    def __init__(self, name, declaration, comment, section):
        self.name, self.declaration, self.section = name, joined(declaration), joined(section)
        text, *reported = REPORTED.split(comment)
        self.text, self.reported = joined(text), [joined(line) for line in reported]
        rules = RULES.search(self.text)
        self.rules = [int(number) for number in re.findall(r"\b\d+\b", rules[1])] if rules else []
        self.asked = rules[1] if rules else ""
        self.text = RULES.sub("", self.text)

    def summary(self):
        first = re.split(r"(?<=\w)[.:;] |\.$", self.text)[0].replace("`", "")
        return first[0].lower() + first[1:]


class Header:
    """The release, the rules by number, with their names, what they refuse and their places, and the calls."""

    def __init__(self, text):
        self.version, self.major = VERSION.search(text).groups()
        rules = text[text.index("BAUCHLETON_ACCEPTED = 0"):text.index("/* The places of rule 6")]
        self.rules = {int(number): (name, when, place) for name, number, when, place in RULE.findall(rules)}
        self.calls, section, comment = [], "", None
        for piece in PIECE.finditer(text, text.index("/* ---- Designs and kits")):
            if piece["comment"] is not None:
                begins = SECTION.match(piece["comment"])
                section, comment = (begins[2], None) if begins else (section, piece["comment"])
            elif comment is None:
                sys.exit(f"{piece['name']}: no comment above its declaration")
            else:
                self.calls.append(Call(piece["name"], piece["declaration"], comment, section))
                comment = None

    def names(self):
        return sorted(call.name for call in self.calls)


def plain(text):
    """Text for troff, as it is."""
    return re.sub(r"^(?=[.'])", r"\\&", text.replace("\\", r"\e").replace("-", r"\-").replace("^", r"\(ha"), flags=re.M)


def prose(text, own=""):
    """Sentences for troff, one a line: parameters in italics, other calls in bold."""
    text = re.sub(r"(?<=[a-z0-9)][.:]) (?=[A-Z`])", "\n", text)
    text = re.sub(r"`([^`]+)`", r"\\fI\1\\fR", plain(text))
    return re.sub(r"\b(bauchleton_\w+)\b", lambda found: rf"\fB{found[1]}\fR" + ("" if found[1] == own else "(3)"), text)


def synopsis(declaration):
    """A declaration in lines that fit a page."""
    lines = [""]
    for part in re.split(r"(?<=,) ", declaration):
        if len(lines[-1]) + len(part) > 74:
            lines.append("    ")
        lines[-1] += part if lines[-1] in ("", "    ") else " " + part
    return [plain(line) for line in lines]


def page(header, call):
    lines = [r".\" Made by tools/header.py from include/bauchleton.h.", f'.TH {call.name.upper()} 3 "" "Bauchleton {header.version}" "Bauchleton calls"']
    lines += [".SH NAME", plain(f"{call.name} - {call.summary()}")]
    lines += [".SH SYNOPSIS", ".nf", ".B #include <bauchleton.h>", ".PP", *synopsis(call.declaration), ".fi", ".PP", r"Link with \fI\-lbauchleton\fR."]
    lines += [".SH DESCRIPTION", prose(call.text, call.name)]
    if call.section:
        lines += [".PP", prose(call.section, call.name)]
    if call.reported:
        lines.append(".SH LENGTHS AND REPORTS")
        for line in call.reported:
            what, _, rest = line.partition(": ")
            lines += [".TP", rf"\fI{plain(what)}\fR", prose(rest, call.name)]
    lines.append(".SH RETURN VALUE")
    if not call.rules:
        lines.append("As described above.")
    else:
        lines.append("0, BAUCHLETON_ACCEPTED, or the number of the first rule that refuses. Rules are asked in this order: " + prose(call.asked) + ".")
        for number in dict.fromkeys(call.rules):
            name, when, place = header.rules[number]
            lines += [".TP", rf"{number} \fB{name}\fR", prose(f"{when}. Place: {place}.")]
    lines += [".SH SEE ALSO", ".BR bauchleton (7)"]
    return "\n".join(lines) + "\n"


def main():
    path, what, *folder = sys.argv[1:] if len(sys.argv) > 2 else ("", "")
    if (what, len(folder)) not in (("names", 0), ("map", 0), ("pages", 1)):
        sys.exit(__doc__)
    header = Header(Path(path).read_text())
    if what == "names":
        print("\n".join(header.names()))
    elif what == "map":
        exported = "".join(f"        {name};\n" for name in header.names())
        print(f"BAUCHLETON_{header.major} {{\n    global:\n{exported}    local: *;\n}};")
    else:
        for call in header.calls:
            (Path(folder[0]) / f"{call.name}.3").write_text(page(header, call))


main()
