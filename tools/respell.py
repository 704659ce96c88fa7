#!/usr/bin/env python3
"""Respells the repository's own definitions and lemmas as today's library spells its words: usage: respell.py, at the top, once, after the kit's port.py.
A name of specs/ and proofs/ that has dashes becomes snake_case where it begins with a small letter and UpperCamelCase where it begins with a capital.
A name is changed only in the files that declare it or import it from a crate of this repository, a record's field wherever it stands after a dot or before '='.
Names that the toolchain makes (the goals that a proof file answers), the names of functions, strings, comments and the library's names stay.
It prints each new name that a file already had, to be looked at."""

import glob
import re
import sys

IDENT = r"[^\s(){}\[\]:;,.λ→∷=]+"
DECLARED = re.compile(r"\s*((?:pub |abbrev |unfoldable )*)((?:%s )*?%s)(?: \(.*?\)| \{.*?\})* : " % (IDENT, IDENT))
TYPE = re.compile(r"\s*(?:pub )?(?:data|record) (%s)" % IDENT)
IMPORT = re.compile(r"^(\s*(?:ghost )?use )(Rattle\.[a-z_]+\.(?:specs|proofs)\.[\w.+◌-]*?)\.\{(.*)\}")
# the library has the plain spelling
OTHERWISE = {"bit-and": "bit_of_and", "bit-or": "bit_of_or"}
WORD = re.compile(r"[^\s(){}\[\]:;,.λ→∷=⟨⟩⌜⌝\"|↦]+")


def respelled(name):
    if name in OTHERWISE:
        return OTHERWISE[name]
    infix = name.startswith("◌") and name.endswith("◌") and len(name) > 2
    core = name[1:-1] if infix else name
    if "-" not in core or not core[0].isalpha():
        return name
    if core[0].isupper():
        core = "".join(part[:1].upper() + part[1:] for part in core.split("-"))
    else:
        core = core.replace("-", "_")
    return "◌%s◌" % core if infix else core


def declared(text):
    """The dashed names that a file of antt declares, and the fields of its records among them."""
    names, fields, record = set(), set(), None
    answered = set(re.findall(r"(?:goal|given|need)\.(%s)" % IDENT, text))
    for line in text.split("\n"):
        if line.lstrip().startswith("--"):
            continue
        depth = len(line) - len(line.lstrip())
        if line.strip() and record is not None and depth <= record:
            record = None
        if m := re.match(r"(\s*)(?:abbrev )?(?:pub )?record %s.*where\s*$" % IDENT, line):
            record = len(m[1])
        if m := TYPE.match(line):
            names.add(m[1])
        elif m := DECLARED.match(line):
            for word in m[2].split():
                names.add(word)
                if record is not None:
                    fields.add(word)
    names = {n for n in names if respelled(n) != n and n not in answered}
    return names, fields & names


def crates():
    return {line.split(":")[0].split()[0] for line in open("crates.txt") if line.strip() and not line.startswith("#")}


def code_spans(text, antt):
    """The pieces of a file, each with whether it is code: not a comment, not a string."""
    pattern = re.compile(r'(--[^\n]*)' if antt else r'(//[^\n]*|b?"(?:\\.|[^"\\])*"|b?\'(?:\\.|[^\'\\])\')')
    at = 0
    for m in pattern.finditer(text):
        if antt and not text[text.rfind("\n", 0, m.start()) + 1 : m.start()].strip() == "":
            continue
        yield text[at : m.start()], True
        yield m[0], False
        at = m.end()
    yield text[at:], True


def main():
    own = crates()
    antt = sorted(glob.glob("crates/*/specs/**/*.antt", recursive=True) + glob.glob("crates/*/proofs/**/*.antt", recursive=True))
    code = sorted(glob.glob("crates/*/src/**/*.rt", recursive=True))
    names_of, fields = {}, set()
    for path in antt:
        names_of[path], more = declared(open(path).read())
        fields |= more
    everything = set().union(*names_of.values())
    for path in antt + code:
        text = open(path).read()
        here = set(names_of.get(path, ()))
        foreign, aliases = set(), set()
        for line in text.split("\n"):
            if m := IMPORT.match(line):
                items = {item.split(" as ")[0].strip() for item in m[3].split(",")}
                aliases |= {item.split(" as ")[1].strip() for item in m[3].split(",") if " as " in item}
                (here if m[2].split(".")[1] in own else foreign).update(items)
        here = here & everything | {a for a in aliases if respelled(a) != a}
        words = {w for span, is_code in code_spans(text, path.endswith(".antt")) if is_code for w in WORD.findall(span)}
        for name in sorted(here):
            if respelled(name) in words:
                print("%s: %s is there already, beside %s" % (path, respelled(name), name))
        clash = here & foreign
        if clash:
            print("%s: of the library and of this repository: %s" % (path, ", ".join(sorted(clash))))

        def turn(m, whole):
            word = m[0]
            if word in here:
                return respelled(word)
            if word in fields and (whole[m.start() - 1 : m.start()] == "." or whole[m.end() : m.end() + 2] in (" =", " {", "")):
                return respelled(word)
            return word

        out = []
        for span, is_code in code_spans(text, path.endswith(".antt")):
            out.append(WORD.sub(lambda m: turn(m, span), span) if is_code else span)
        new = "".join(out)
        if new != text:
            open(path, "w").write(new)
    return 0


sys.exit(main())
