#!/usr/bin/env python3
"""Respells the repository's own definitions, lemmas, fields and constructors: words in snake case, no dash inside a name.

Run once, at the top, behind port.py. It reads the names that crates/*/specs and crates/*/proofs declare (the goals of a function's
Proof.antt aside), and turns them in every .antt, .rt and .edit file, and between backquotes in the pages. Types, modules, functions of
src/ and what the toolchain names stay. Where a lemma would fall together with the definition that it speaks of, it ends in `_lem`.
--list prints the table, and what else falls together."""
import glob
import re
import sys

# One name, as antt has it, without the dot of a path.
NAME = re.compile(r"[A-Za-z0-9_'!=\u2080-\u2089μ◌≔-]+")

# Names that would fall together with a definition's, other than by a dash for a capital.
APART = {
    "from-tab": "from_a_tab",
    "isLet": "legal_let",
    "notLet": "legal_not_let",
    "number_fits": "number_fits_lem",
    "owner_at": "owner_at_lem",
    "frame-at": "frame_at_lem",
    "chosen_at": "chosen_at_lem",
    "closed_at": "closed_at_lem",
    "one_more": "one_more_lem",
    "tab-live": "tab_live_lem",
    ".tab-live": "tab_live",
    "start-process": "starts_process",
    "start-tab": "starts_tab",
    "stop-process": "stops_process",
    "stop-tab": "stops_tab",
}
# Names that no line of their own declares: several constructors to a line, a parameter of a record, a name given by `as`.
BESIDE = ("seatZero", "rowZero", "seatsAt", "setMark", "clearMark", "roomAfter", "bookOrders", "listedNames")
# Names as in APART, in the files of one crate alone.
APART_IN = {"terms": {"name_of": "name_of_lem"}}

DECLARED = re.compile(r"^\s*(?:(?:abbrev|unfoldable|pub|package)\s+)*([^\s(){}:,;]+) :(\s|$)")
NOT_DECLARED = ("use ", "mod ", "infix", "unfolding", "--", "let ", "in ", "record ", "data ", "open ")
BLOCK = re.compile(r"^(?:pub )?(record|data) ")


def declared(path):
    """The names that a file declares, each with whether it is a field or a constructor and no definition."""
    inside = False
    for line in open(path):
        if line.strip() and not line.startswith(" "):
            inside = BLOCK.match(line) is not None
        found = DECLARED.match(line)
        if found and not line.lstrip().startswith(NOT_DECLARED):
            yield found.group(1), inside


def snake(name):
    """Words in snake case; a type keeps its capital."""
    if name[0].isupper():
        return name
    return re.sub(r"(?<=[a-z0-9])([A-Z])", lambda m: "_" + m.group(1).lower(), name.replace("-", "_"))


def table():
    """All names of the repository's own, and those that change, old to new."""
    names, defined = set(), set()
    for path in glob.glob("crates/*/specs/**/*.antt", recursive=True) + glob.glob("crates/*/proofs/**/*.antt", recursive=True):
        if not path.endswith("/Proof.antt"):
            for name, member in declared(path):
                names.add(name)
                if not member:
                    defined.add(name)
    turned = {}
    for name in names:
        new = snake(name)
        if "-" in name and name in defined and any(other != name and "-" not in other and snake(other) == new for other in names):
            new += "_lem"
        if new != name:
            turned[name] = new
    turned.update(APART)
    turned.update((name, snake(name)) for name in BESIDE)
    return names, turned


def turn(text, turned, only=None):
    """Every name of the text that the table has; `only` says at which places."""

    def new(match):
        name, field = match.group(), match.start() > 0 and text[match.start() - 1] == "."
        if only is not None and not only(match):
            return name
        if field:
            if "." + name in turned:
                return turned["." + name]
            return name if name in APART and "-" not in name else turned.get(name, name)
        return turned.get(name, name)

    return NAME.sub(new, text)


def in_code(line, mark, turned):
    """A line of code, and behind `mark` a comment, in which a dashed word is a name between backquotes alone. In an edit, the code is
    what stands behind `old:` and `new:`."""
    if mark is None:
        return turn(line, turned) if line.startswith(("old:", "new:")) else quoted(line, turned)
    at = line.find(mark)
    if at < 0:
        return turn(line, turned)
    code, comment = line[:at], line[at:]
    return turn(code, turned) + quoted(comment, turned)


def quoted(text, turned):
    """Names in prose: between backquotes, or in camel case."""

    def only(match):
        before, after = text[: match.start()], text[match.end() :]
        ticked = before.count("`") % 2 == 1 and "`" in after
        return ticked or re.search(r"[a-z][A-Z]", match.group()) is not None

    return turn(text, turned, only)


def main():
    names, turned = table()
    if "--list" in sys.argv:
        kept = names - set(turned)
        into = {}
        for old, new in sorted(turned.items()):
            print(f"{old}\t{new}")
            into.setdefault(new, []).append(old)
        for new, olds in sorted(into.items()):
            if len(olds) > 1 or new in kept:
                print(f"# together: {new} of {' '.join(olds)}{' and itself' if new in kept else ''}")
        return
    for path in glob.glob("crates/**/*", recursive=True):
        here = dict(turned)
        here.update(APART_IN.get(path.split("/")[1], {}))
        if path.endswith(".rt"):
            here = {old: new for old, new in here.items() if snake(old) != old}
        if path.endswith(".antt"):
            mark = "--"
        elif path.endswith(".rt"):
            mark = "//"
        elif path.endswith(".edit"):
            mark = None
        else:
            continue
        text = open(path).read()
        new = "".join(in_code(line, mark, here) for line in text.splitlines(keepends=True))
        if new != text:
            open(path, "w").write(new)
    for path in ["README.md"] + glob.glob("docs/*.md"):
        text = open(path).read()
        new = "".join(quoted(line, turned) for line in text.splitlines(keepends=True))
        if new != text:
            open(path, "w").write(new)


main()
