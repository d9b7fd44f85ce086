"""Brings the names of definitions and lemmas to snake case: `python3 tools/respell.py [--dry]` at the top of the repository.

It reads which names the .antt files declare, leaves those of Rattle's library and those that the check makes (goals and what they hold), and writes the
others in snake case in the .antt files, the contracts, the must-fail edits and, between backquotes, in the pages. Where two names would fall together in one
file, it names them and changes nothing: OTHERWISE has the name that one of them takes. Where all is in snake case already there is nothing to do.
"""

import collections
import glob
import re
import sys

# a name that would fall together with another one in its file
OTHERWISE = {
    "band-after": "band_kept",
    "block_on": "block_goes_on",
    "by-integrated": "integrated_class",
    "by-recorded": "keeps_recorded",
    "felt-on": "felt_goes_on",
    "fits_read": "reads_fits",
    "is-nan": "nan_by_test",
    "kind-read": "reads_kind",
    "lag-on": "lag_goes_on",
    "log-of": "log_signed",
    "opened-by": "opens_so",
    "reply-of": "replies_so",
    "rows-of": "rows_within",
    "stands_by": "stands_so",
    "sums_on": "sums_go_on",
    "tested-above": "above_tested",
    "window-fit": "fit_of_window",
}

# a piece of a path: what stands between blanks, brackets, commas, dots and colons
PIECE = re.compile(r"[^\s(){}\[\];:,.\"@`]+")
# a name that stands alone, which is what can be taken for another one: no part of a path or of a value
ALONE = re.compile(r"(?<![^\s(){}\[\];,\"@`])[^\s(){}\[\];,.\"@`]+(?!\.\{)(?!\.[A-Za-z]+\.)")
CAMEL = re.compile(r"[a-z][a-z0-9_']*[A-Z][A-Za-z0-9_'₀-₉]*")
ALIAS = re.compile(r"\bas ([a-z][a-z0-9_]*[A-Z][A-Za-z0-9_]*)(?=[,}])")
DASHED = re.compile(r"[A-Za-z][^\s(){}\[\];,.\"@`-]*(?:-[^\s(){}\[\];,.\"@`-]+)+")
DECLARED = re.compile(r"^ *(?:(?:pub|abbrev|unfoldable|record|data) )*((?:[^\s(){}\[\];,.\"@:]+ )*?[^\s(){}\[\];,.\"@:]+)(?: \([^)]*\)| \{[^}]*\})* :(?: |$)", re.M)
USED = re.compile(r"^\s*(?:pub )?use (\S+?)\.\{([^}]*)\}", re.M)


def snake(name):
    return re.sub(r"(?<=[a-z0-9])[A-Z]", lambda m: "_" + m[0], name.replace("-", "_")).lower()


def bare(text):
    """Without comments."""
    return re.sub(r"--[^\n]*|//[^\n]*", "", text)


def crates():
    lines = open("crates.txt").read().splitlines()
    return {re.split(r"[ :]", line)[0] for line in lines if line and not line.startswith("#")}


def names(logic, code):
    """The names to respell, from the texts of the .antt files, and from those of the .rt files the names under which they take a definition."""
    ours, theirs, made = crates(), set(), set()
    found = {alias for text in code for alias in ALIAS.findall(text)}
    for text in logic.values():
        for path, items in USED.findall(text):
            parts = path.split(".")
            if parts[0] != "Rattle" or parts[1] not in ours:
                theirs |= {item.split(" as ")[0].strip() for item in items.split(",")}
        made |= set(re.findall(r"\bgoals?\.([^\s(){}\[\];,.\"@]+)", text))
        found |= {piece for piece in PIECE.findall(text) if CAMEL.fullmatch(piece)}
        for declared in DECLARED.findall(text):
            found |= {piece for piece in declared.split() if DASHED.fullmatch(piece)}
    new = {name: snake(name) for name in found - theirs - made}
    return new | {name: other for name, other in OTHERWISE.items() if name in new or name in new.values()}


def told(piece, new, said, page):
    """A name on a page. In README.md a name with a dash is one of the command's warnings."""
    if CAMEL.fullmatch(piece) or DASHED.fullmatch(piece) and page != "README.md":
        name = new.get(piece, snake(piece))
        return name if name in said else piece
    return new.get(piece, piece) if "-" not in piece else piece


def main():
    logic_files = sorted(f for part in ("specs", "proofs") for f in glob.glob(f"crates/*/{part}/**/*.antt", recursive=True))
    others = sorted(glob.glob("crates/*/src/**/*.rt", recursive=True) + glob.glob("crates/*/must-fail/*.edit"))
    pages = sorted({"README.md", *glob.glob("docs/*.md")} - {"docs/01-scope.md", "docs/02-change-requests.md", "docs/PORT.md"})
    texts = {f: open(f).read() for f in logic_files + others}
    new = names({f: bare(texts[f]) for f in logic_files}, [texts[f] for f in others])
    if not new:
        print("0 names")
        return
    together = False
    for f in logic_files:
        came = collections.defaultdict(set)
        for piece in ALONE.findall(bare(texts[f])):
            came[new.get(piece, piece)].add(piece)
        for name, olds in came.items():
            if len(olds) > 1:
                together = True
                print(f"{f}: {' and '.join(sorted(olds))}: both {name}")
    if together:
        sys.exit("nothing was changed")
    if "--dry" in sys.argv:
        for name in sorted(new):
            print(name, new[name])
        return
    for f, text in texts.items():
        turned = PIECE.sub(lambda m: new.get(m[0], m[0]), text)
        if turned != text:
            open(f, "w").write(turned)
    said = {new.get(piece, piece) for f in logic_files for piece in PIECE.findall(bare(texts[f]))}
    for f in pages:
        text = open(f).read()
        turned = re.sub(r"`[^`\n]+`", lambda m: PIECE.sub(lambda n: told(n[0], new, said, f), m[0]), text)
        if turned != text:
            open(f, "w").write(turned)
    print(f"{len(new)} names")


if __name__ == "__main__":
    main()
