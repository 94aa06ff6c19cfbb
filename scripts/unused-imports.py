#!/usr/bin/env python3
"""Names each import of a .rt or .antt file that occurs nowhere else in the file; status 1 where there is one.

    scripts/unused-imports.py            names them
    scripts/unused-imports.py --write    takes them out of the files; rt check and rt fmt come after it

Reads text alone, so it can miss some. rt tidy finds those of .antt files, in a proved crate, and changes the files.
"""
import glob
import os
import re
import sys

TOP = os.path.dirname(os.path.dirname(os.path.abspath(__file__)))
COMMENT = {".rt": r"//[^\n]*", ".antt": r"(?m)(?:^|(?<=[ (){}]))--[^\n]*"}
# A use item with its line end: in a .rt file up to the semicolon, in an .antt file up to the bracket or the line's end.
ITEM = {
    ".rt": r"(?m)^[ \t]*(?P<pub>pub(?:\([^)]*\))? )?(?:ghost )?use (?P<path>[^;]+);\n?",
    ".antt": r"(?m)^[ \t]*(?P<pub>pub )?(?:open )?use (?P<path>[^{\n]*\{[^}]*\}|[^{\n]+)\n?",
}
# A trait is used where its methods are called: these, and those of the repository. A list and a chain of steps may be
# spelled without their operators.
TRAITS = {"Read", "BufRead", "Write", "Hash", "Hasher", "BuildHasher", "Iterator", "Borrow", "AsRef", "FromStr", "Any"}
SPELLED = {"[]": "[", "◌∷◌": "[", "◌>>=◌": "do", "◌>>◌": "do"}


def named(part):
    """The name that a part of a use item brings, or nothing for one that is not looked at."""
    words = part.split()
    if not words or re.search(r"[{}*]", part):
        return None
    return words[-1] if "as" in words else re.split(r"::|\.", words[-1])[-1]


def stands(name, text):
    """Whether the name occurs as a word, or each part of an operator does."""
    for part in filter(None, name.split("◌")):
        around = r"(?<![\w'-]){}(?![\w'-])" if re.match(r"\w", part) else r"{}"
        if not re.search(around.format(re.escape(part)), text):
            return False
    return True


def is_used(name, rest):
    return name in TRAITS or stands(name, rest) or name in SPELLED and stands(SPELLED[name], rest)


def look(path, writes):
    """The unused names of a file, which are taken out of it if `writes`."""
    kind, found = os.path.splitext(path)[1], []
    with open(path, encoding="utf-8") as file:
        text = file.read()
    rest = re.sub(ITEM[kind], "", re.sub(COMMENT[kind], "", text))

    def without(item):
        begin, bracket, inside = item["path"].partition("{")
        parts = inside.rstrip().removesuffix("}").split(",") if bracket else [begin]
        unused = [it for it in parts if named(it) and not item["pub"] and not is_used(named(it), rest)]
        found.extend(named(it) for it in unused)
        kept = [it.strip() for it in parts if it.strip() and it not in unused]
        if not unused:
            return item[0]
        return item[0].replace(item["path"], f"{begin}{{{', '.join(kept)}}}") if kept else ""

    new = re.sub(ITEM[kind], without, text)
    if writes and new != text:
        with open(path, "w", encoding="utf-8") as file:
            file.write(new)
    return found


def main(words):
    if words not in ([], ["--write"]):
        sys.stderr.write(__doc__)
        return 2
    status = 0
    for path in glob.glob(f"{TOP}/crates/*/src/**/*.rt", recursive=True):
        with open(path, encoding="utf-8") as file:
            TRAITS.update(re.findall(r"\btrait (\w+)", file.read()))
    for folder, ending in (("src", "rt"), ("specs", "antt"), ("proofs", "antt")):
        for path in sorted(glob.glob(f"{TOP}/crates/*/{folder}/**/*.{ending}", recursive=True)):
            for name in look(path, bool(words)):
                print(f"unused-imports: {os.path.relpath(path, TOP)} {'has lost' if words else 'does not use'} {name}")
                status = 0 if words else 1
    return status


if __name__ == "__main__":
    sys.exit(main(sys.argv[1:]))
