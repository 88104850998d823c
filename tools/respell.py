#!/usr/bin/env python3
"""Brings the repository's own definitions, lemmas and labels to today's spelling: words in snake case.

usage: python3 tools/respell.py [--list]      at the top of the repository; run once, after the kit's own script

A definition, a lemma or a field of a record that is declared with dashes, as `beam-of`, is written `beam_of` wherever it
stands as a whole word: in specs/, proofs/ and clauses. So are a source name and a label that a proof cites by its older
spelling, as `.tells-the-limit`. Names that the check makes (`returns-in-ok`, `loop-i-preserved`) and names of the
library (`length-append`) stay. Python 3, standard library only. --list prints the changes and writes nothing.
"""

import os
import re
import sys

WORD = re.compile(r"[^\s(){}\[\].,;:λ⌜⌝\"`|«»]+")
DECLARED = re.compile(r"^\s*((?:(?:abbrev|unfoldable|pub|mutual) +)*)([^\s:(){}=]+(?: [^\s:(){}=]+)*) +:(?: +(.*))?$")
ALIAS = re.compile(r" as ([a-z][a-z0-9]*(?:-[a-z0-9]+)+)[,};]")
SOURCE = re.compile(r"[a-z][a-z0-9]*(?:_[a-z0-9]+)+")
# names that would fall together with another one, and what they are called
SPECIAL = {}


def files(ends):
    for folder, dirs, names in os.walk("crates"):
        dirs[:] = sorted(d for d in dirs if d != "out")
        for name in sorted(names):
            if name.endswith(ends):
                yield os.path.join(folder, name)


def read(path):
    with open(path, encoding="utf-8") as f:
        return f.read()


def declared():
    """Names with dashes that specs/ and proofs/ declare, but for answers to goals, and those that an import gives."""
    own = set()
    for path in files(".antt"):
        for line in read(path).split("\n"):
            m = DECLARED.match(line)
            if not m or line.lstrip().startswith("--"):
                continue
            if (m.group(3) or "").startswith(("goal.", "given.")):
                continue
            words = [w for w in m.group(2).split() if w not in ("data", "record", "module", "let", "use")]
            own.update(w for w in words if "-" in w and w[0].isalpha())
    for path in files((".antt", ".rt")):
        own.update(ALIAS.findall(read(path)))
    return own


def sources():
    """The older spelling of the names with underscores that src/ has."""
    return {word.replace("_", "-") for path in files(".rt") for word in SOURCE.findall(read(path))}


def main():
    if not os.path.isdir("crates"):
        sys.exit("respell: run it at the top of the repository")
    change = {name: SPECIAL.get(name, name.replace("-", "_")) for name in declared()}
    for name in sources():
        change.setdefault(name, name.replace("-", "_"))
    if "--list" in sys.argv:
        for name in sorted(change):
            print(name, change[name])
        return
    written = 0
    for path in files((".antt", ".rt", ".edit")):
        text = read(path)
        turned = WORD.sub(lambda m: change.get(m.group(0), m.group(0)), text)
        if turned != text:
            with open(path, "w", encoding="utf-8") as f:
                f.write(turned)
            written += 1
    print(f"respell: {len(change)} names, {written} files")


if __name__ == "__main__":
    main()
