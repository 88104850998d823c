"""Counts the places in src/ where an older form of code may stand, point by point: python3 tools/places.py [FOLDER].

FOLDER is a checkout of the repository (this one, if none is named). Standard library only; it reads text and writes none.
Each point prints its places and then their number. A place is a candidate: what a reader then finds there decides.
"""

import collections
import glob
import os
import re
import sys

CODED = "kind|quantity|sense|analysis|layer"
BY_HAND = (
    "of_numbers?|numbers?|same_[a-z_]+|refusal|digit|bytes_of|number_of|print_[a-z]+|tell|blank|certify|is_refused"
)


def sources(folder):
    """The text of each Rattle file, by its path below crates/."""
    for path in sorted(glob.glob(os.path.join(folder, "crates", "*", "src", "*.rt"))):
        with open(path, encoding="utf-8") as file:
            yield path.split("crates" + os.sep, 1)[1], file.read()


def plain(text):
    """The text without comments, clauses and ghost lines."""
    text = re.sub(r"//[^\n]*", "", text)
    text = re.sub(r"^\s*(requires|ensures)\b[^\n]*", "", text, flags=re.M)
    return re.sub(r"^\s*ghost [^\n]*", "", text, flags=re.M)


def line_of(text, at):
    return text.count("\n", 0, at) + 1


def report(point, places):
    print(f"{point}: {len(places)}")
    for place in places:
        print("    " + place)


def lines_with(files, pattern):
    found = []
    for path, text in files:
        for number, line in enumerate(text.split("\n"), 1):
            code = line.split("//")[0]
            if re.search(pattern, code):
                found.append(f"{path}:{number}: {code.strip()[:100]}")
    return found


def functions(files):
    """Each function with a body: path, line, name, parameters, and the text from its name's bracket to its last brace."""
    for path, text in files:
        code = plain(text)
        for match in re.finditer(r"\bfn ([a-z_0-9]+)(?:<[^(]*>)?\(", code):
            start = code.find("{", match.end())
            semicolon = code.find(";", match.end())
            if start < 0 or 0 <= semicolon < start and "[" not in code[match.end():semicolon]:
                continue
            depth, end = 0, start
            while end < len(code):
                depth += {"{": 1, "}": -1}.get(code[end], 0)
                end += 1
                if depth == 0:
                    break
            closing = code.find(")", match.end())
            yield path, match.group(1), code[match.end():closing], code[match.end() - 1:end]


def shape(code):
    """The tokens, each name replaced by the place where it first stands, each literal by 0."""
    names, tokens = {}, []
    for token in re.findall(r"[A-Za-z_][A-Za-z_0-9]*|[0-9][0-9_a-zA-Z]*|\"[^\"]*\"|[^\sA-Za-z_0-9]", code):
        if re.match(r"[A-Za-z_]", token) and token not in KEPT:
            token = "n%d" % names.setdefault(token, len(names))
        elif re.match(r"[0-9\"]", token):
            token = "0"
        tokens.append(token)
    return tuple(token for token in tokens if token != ",")


KEPT = {
    "fn", "let", "if", "else", "match", "for", "in", "while", "return", "self", "Self", "mut", "pub", "struct", "enum",
    "Ok", "Err", "Some", "None", "Result", "Option", "true", "false", "u32", "u64", "usize", "bool",
}


def twins(files):
    """Functions of one shape in one crate or across crates, but for tests; structs of one shape."""
    groups = collections.defaultdict(list)
    for path, name, _, code in functions(files):
        tokens = shape(code)
        if len(tokens) >= 24 and "tests" not in path:
            groups[tokens].append(f"{path} fn {name}")
    for path, text in files:
        for match in re.finditer(r"\bstruct ([A-Za-z]+)[^{;]*(\{[^}]*\})", plain(text)):
            tokens = shape(match.group(2))
            if len(tokens) >= 8:
                groups[("struct",) + tokens].append(f"{path} struct {match.group(1)}")
    return sorted(" ~ ".join(group) for group in groups.values() if len(group) > 1)


def facts(files):
    """Clauses that stand in the contracts of three or more functions."""
    count, where = collections.Counter(), collections.defaultdict(set)
    for path, text in files:
        for match in re.finditer(r"^\s*(requires|ensures) [a-z_0-9]+ \{ (.*) \}\s*;?\s*$", text, re.M):
            key = (match.group(1), match.group(2))
            count[key] += 1
            where[key].add(path.split(os.sep)[0])
    return [f"{n} times in {', '.join(sorted(where[k]))}: {k[0]} {k[1][:110]}" for k, n in count.most_common() if n >= 3]


def travellers(files):
    """The greatest sets of three or more parameters that five or more functions take together."""
    sets = []
    for _, _, parameters, _ in functions(files):
        names = {p.strip().split(":")[0].strip().replace("mut ", "") for p in parameters.split(",") if ":" in p}
        sets.append(frozenset(names))
    shared = collections.Counter()
    for a in sets:
        for b in sets:
            both = a & b
            if len(both) >= 3:
                shared[both] = sum(1 for s in sets if both <= s)
    often = {s: n for s, n in shared.items() if n >= 5}
    return sorted(f"{n} functions: {', '.join(sorted(s))}" for s, n in often.items() if not any(s < t for t in often))


def main():
    folder = sys.argv[1] if len(sys.argv) > 1 else os.path.join(os.path.dirname(os.path.abspath(__file__)), "..")
    files = list(sources(folder))
    report("1 own enums", lines_with(files, r"\benum [A-Z]"))
    report("1 numbers for kinds and refusals", lines_with(files, rf"\b({CODED}): u32|-> Option<(Kind|Analysis|Quantity|Sense)>|\bconst (WALL|BEAM|S4): u32"))
    report("1 flags beside a value", lines_with(files, r"\b[a-z_]+: bool\b"))
    report("2 twins", twins(files))
    report("3 loops", lines_with(files, r"^\s*(for|while|loop)\b"))
    report("4 written by hand", lines_with(files, rf"\bfn ({BY_HAND})\b"))
    report("5 facts in three contracts or more", facts(files))
    report("5 parameters that travel together", travellers(files))
    report("6 fixed buffers", lines_with(files, r"= \[[^\]]*; [A-Za-z0-9_]+\];|: \[[A-Za-z0-9]+; [A-Z0-9_a-z]+\],|\bcount: usize"))
    report("7 switches on a number, tables of functions", lines_with(files, r"match article|\bdyn\b|: fn\("))


if __name__ == "__main__":
    main()
