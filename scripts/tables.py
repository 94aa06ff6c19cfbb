#!/usr/bin/env python3
"""The tables of docs/ that are made from the crates: the definitions in ARCHITECTURE.md, the errors in ERRORS.md.

    scripts/tables.py            compares each with what stands in its page, and names what differs; status 1 where any does
    scripts/tables.py --write    writes each into its page

A table stands between the two lines `<!-- NAME: made by scripts/tables.py -->` and `<!-- NAME: end -->`.
"""
import glob
import os
import re
import sys

TOP = os.path.dirname(os.path.dirname(os.path.abspath(__file__)))
PAGES = {"definitions": "docs/ARCHITECTURE.md", "errors": "docs/ERRORS.md"}
# Inner definitions, which no public clause names, stand in specs/inner/ and are left out, and so is what rattle declares.
INNER = ("inner", "declared")


def text_of(path):
    with open(os.path.join(TOP, path), encoding="utf-8") as file:
        return file.read()


def crates():
    """The names in crates.txt, in its order."""
    lines = [line.split("#")[0].partition(":")[0].split() for line in text_of("crates.txt").splitlines()]
    return [words[0] for words in lines if words]


def files_of(crate, folder, ending):
    found = glob.glob(f"{TOP}/crates/{crate}/{folder}/**/*{ending}", recursive=True)
    return sorted(os.path.relpath(it, TOP) for it in found)


def first_sentence(path):
    """Of the comment that the file begins with; a line set in further than the first belongs to a list, which ends it."""
    lines = []
    for line in text_of(path).splitlines():
        found = re.match(r"-- ?(\S.*)", line)
        if not found:
            break
        lines.append(found[1].strip())
    return re.split(r"(?<=\.) ", " ".join(lines))[0]


def words_of(path):
    """What the file defines and others may cite, at its margin or in a block that is mutual or a module; laws are left out."""
    names, is_block = [], False
    for line in text_of(path).splitlines():
        is_block = bool(re.match(r"(?:\w+ )?mutual\b|module _", line)) or is_block and not re.match(r"\S", line)
        head = r"  (?:abbrev )?pub (?:data |record )?(\S+)" if is_block else r"(?:(?:abbrev|unfoldable) pub|pub (?:data|record)) (\S+)"
        names += re.findall(f"^{head}", line)
    return [f"`{it}`" for it in names if not re.search(r"\w-", it)]


def definitions():
    """The first sentence of each file, and where it names no word, the words that the file defines."""
    yield "| File | Defines |"
    yield "|---|---|"
    for crate in crates():
        for path in files_of(crate, "specs", ".antt"):
            if {*path.removesuffix(".antt").split("/")[3:]} & {"Lib", *INNER}:
                continue
            sentence = first_sentence(path)
            if not sentence.endswith("."):
                sys.exit(f"tables: {path} does not begin with a comment of one sentence")
            words = [] if "`" in sentence else words_of(path)
            yield f"| `{path.removeprefix('crates/')}` | {sentence}{' ' * bool(words)}{', '.join(words)} |"


def errors():
    """Numbers are those of error_number in specs/, statuses those of status_of, and texts those of the enums."""
    yield "| Crate | Number | Name | Status | Text |"
    yield "|---|---|---|---|---|"
    for crate in crates():
        specs = "\n".join(text_of(it) for it in files_of(crate, "specs", ".antt"))
        code = "\n".join(text_of(it) for it in files_of(crate, "src", ".rt"))
        clauses = re.findall(r"^(error_number|number_of|status_of) (.*\w)\W* = (\d+)$", specs, re.M)
        # The name is the first word of an error's pattern, and the last of a status's; a module may stand before it.
        numbers = {re.findall(r"[\w.]+", it)[0].split(".")[-1]: number for head, it, number in clauses if head != "status_of"}
        statuses = {re.findall(r"\w+", it)[-1]: number for head, it, number in clauses if head == "status_of" and it != "None"}
        texts = {name: text for text, name in re.findall(r'#\[error\("([^"]*)"\)\]\s*(?:pub struct )?(\w+)', code)}
        for name in dict.fromkeys([*numbers, *statuses, *texts]):
            yield f"| `{crate}` | {numbers.get(name, '')} | `{name}` | {statuses.get(name, '')} | {texts.get(name, '')} |"


def main(words):
    if words not in ([], ["--write"]):
        sys.stderr.write(__doc__)
        return 2
    status = 0
    for name, page in PAGES.items():
        begin, end = f"<!-- {name}: made by scripts/tables.py -->\n", f"<!-- {name}: end -->\n"
        text = text_of(page)
        if text.count(begin) != 1 or text.count(end) != 1:
            sys.exit(f"tables: {page} has not the two lines between which the table of {name} stands")
        before, rest = text.split(begin)
        table = "\n" + "".join(f"{line}\n" for line in globals()[name]()) + "\n"
        new = before + begin + table + end + rest.split(end)[1]
        if new != text and words:
            with open(os.path.join(TOP, page), "w", encoding="utf-8") as file:
                file.write(new)
        elif new != text:
            print(f"tables: the table of {name} in {page} is not what scripts/tables.py --write writes")
            status = 1
    return status


if __name__ == "__main__":
    sys.exit(main(sys.argv[1:]))
