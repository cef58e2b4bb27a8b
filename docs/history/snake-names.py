#!/usr/bin/env python3
"""Brings the names that this repository's specs/ and proofs/ define to snake case.

usage: python3 tools/snake-names.py [--dry] [FOLDER]

Run once, at the top of a checkout that the kit's port.py has turned and before any edit by hand. Types and
modules keep their capitals, and so do names that the checker makes, names of the standard library, and everything
in src/ outside of clauses. It prints each new spelling, and stops where two names would fall together.
"""

import os
import re
import sys

WORD = r"[^\W\d_](?:[\w'₀-₉]|-(?=[\w'≡∷<≤+]))*"
TOKEN = re.compile(r"(?<![\w'·-])" + WORD)
DEFINED = re.compile(
    r"(?m)^(?P<indent> *)(?:abbrev |unfoldable |private |unfolding )*(?:pub )?(?P<name>" + WORD + r") :(?P<type>[^\n]*)"
)
COMMENT = re.compile(r"--(?![\w'-])[^\n]*|//[^\n]*|\"(?:\\.|[^\"\\])*\"")
# Where the plain spelling would meet another name: a lemma beside its word, and a word beside a field.
OTHERWISE = {
    "at-start": "at_start_lem",
    "is-of": "is_of_lem",
    "leaving-event": "leaving_event_lem",
    "noRoom": "without_room",
    "size-of": "size_of_lem",
}
RECORD = re.compile(r"(?m)^(?:pub )?record (" + WORD + r") ")
# Functions and labels of src/, which proofs cite by these names.
GIVEN = re.compile(r"\b(?:fn|ensures|requires) (\w+)")


def files(top):
    for folder, dirs, names in os.walk(os.path.join(top, "crates")):
        dirs[:] = sorted(d for d in dirs if d != "out")
        for name in sorted(names):
            if name.endswith((".antt", ".rt")):
                yield os.path.join(folder, name)


def snake(name):
    if name[0].isupper():
        return re.sub(r"-([a-z])", lambda m: m.group(1).upper(), name)
    name = re.sub(r"(?<=[a-z0-9])([A-Z])(?=[a-z]|$)", lambda m: "_" + m.group(1).lower(), name)
    return name.replace("-", "_")


def defined(text):
    """The names that a proof or a definition file gives, but for answers, whose names the checker makes."""
    text = COMMENT.sub("", text)
    yield from RECORD.findall(text)
    for m in DEFINED.finditer(text):
        if re.match(r"\s*(\w+ → )?(goal|given)\.", m.group("type")):
            continue
        yield m.group("name")


def main(words):
    dry = "--dry" in words
    rest = [w for w in words if not w.startswith("--")]
    top = rest[0] if rest else "."
    texts = {}
    for path in files(top):
        with open(path, encoding="utf-8") as f:
            texts[path] = f.read()
    new = {}
    for path, text in texts.items():
        if path.endswith(".antt"):
            for name in defined(text):
                if "-" in name or name[0].islower() and re.search("[A-Z]", name):
                    new[name] = OTHERWISE.get(name, snake(name))
    given = {name for path, text in texts.items() if path.endswith(".rt") for name in GIVEN.findall(text)}
    seen = {}
    for path, text in texts.items():
        for m in TOKEN.finditer(COMMENT.sub("", text)):
            seen.setdefault(m.group(), path)
    back = {}
    bad = []
    for old, name in sorted(new.items()):
        if name in back:
            bad.append(f"{old} and {back[name]} both become {name}")
        if name in seen and name not in given:
            bad.append(f"{old} becomes {name}, which stands in {seen[name]}")
        back[name] = old
    for old, name in sorted(new.items()):
        print(f"{old} → {name}")
    for line in bad:
        print("meets: " + line, file=sys.stderr)
    if bad:
        raise SystemExit(1)
    if dry:
        return

    def turn(m):
        old = m.group()
        if m.string[: m.start()].endswith(".") and old in OTHERWISE:
            return snake(old)
        return new.get(old, old)

    for path, text in texts.items():
        out = []
        last = 0
        for c in COMMENT.finditer(text):
            out.append(TOKEN.sub(turn, text[last : c.start()]))
            out.append(c.group())
            last = c.end()
        out.append(TOKEN.sub(turn, text[last:]))
        turned = "".join(out)
        if turned != text:
            with open(path, "w", encoding="utf-8") as f:
                f.write(turned)


main(sys.argv[1:])
