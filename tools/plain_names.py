#!/usr/bin/env python3
"""Spells the repository's own names as today's Rattle spells its words: snake case for definitions, lemmas and variables, camel case for types.

Run once, at the top of the repository, on what the toolchain's port.py has left: python3 tools/plain_names.py

It goes over specs/ and proofs/ whole, and over src/ where names of specs/ stand (a name of src/ has no hyphen). What stays as it is: comments, texts in
quotes, names of the toolchain's library, and what the check itself makes (the names of goals, and the steps in an answer's facts).
"""
import glob
import re

NAME = re.compile(r"(\.|(?<![A-Za-z0-9_'.-]))([A-Za-z_][A-Za-z0-9_']*(?:-[A-Za-z0-9_']+)+)")
QUOTED = re.compile(r'("(?:[^"\\]|\\.)*")')
IMPORT = re.compile(r"^(?:ghost )?use ([A-Za-z_]+)\.([A-Za-z_]+)[^{]*\{([^}]*)\}")
GOAL = re.compile(r"^(?:abbrev )?(?:pub )?(\S+) : goal\.")
FIELD = re.compile(r"^\s+pub ([A-Za-z_][^\s:]*) : ")
FILES = (("crates/*/specs/**/*.antt", r"(^|\s)--(\s|$)"), ("crates/*/proofs/**/*.antt", r"(^|\s)--(\s|$)"), ("crates/*/src/**/*.rt", r"//"))


class Names:
    """What the whole repository's files say of names."""

    def __init__(self, texts, crates):
        # what is imported from elsewhere than this repository's crates
        self.library = set()
        # the fields of the repository's own records
        self.fields = set()
        for text in texts:
            for line in text.split("\n"):
                found = IMPORT.match(line)
                if found and not (found.group(1) == "Rattle" and found.group(2) in crates):
                    self.library.update(name for _, name in NAME.findall(found.group(3)))
                found = FIELD.match(line)
                if found:
                    self.fields.add(found.group(1))

    def turned(self, text, comment):
        goals = {found.group(1) for found in map(GOAL.match, text.split("\n")) if found}

        def spelled(match):
            dot, name = match.groups()
            made = name in goals if dot == "" else name not in self.fields
            if name in self.library or made:
                return match.group(0)
            if name[0].isupper():
                return dot + "".join(part[:1].upper() + part[1:] for part in name.split("-"))
            return dot + name.replace("-", "_")

        def line_turned(line):
            mark = re.search(comment, line)
            code, rest = (line, "") if mark is None else (line[: mark.start()], line[mark.start():])
            return "".join(p if p.startswith('"') else NAME.sub(spelled, p) for p in QUOTED.split(code)) + rest

        return "\n".join(map(line_turned, text.split("\n")))


def main():
    texts = {}
    comments = {}
    for pattern, comment in FILES:
        for path in sorted(glob.glob(pattern, recursive=True)):
            with open(path, encoding="utf-8") as file:
                texts[path] = file.read()
            comments[path] = comment
    names = Names(texts.values(), {path.split("/")[1] for path in texts})
    for path, text in texts.items():
        with open(path, "w", encoding="utf-8") as file:
            file.write(names.turned(text, comments[path]))


main()
