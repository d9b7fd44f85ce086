#!/usr/bin/env python3
"""Counts the places that docs/DESIGN-PASS.md speaks of, by their text: `python3 tools/places.py [ROOT] [--list]`.

What only reading finds (which twins are twins, which number is a kind) stands in the page. Each count is of crates/*/src, but
for the answers, which are of crates/*/proofs."""
import collections, glob, os, re, sys

FN = re.compile(r"^( *)(?:pub )?(?:extern \"C\" )?fn (\w+)(.*?)^\1\}", re.S | re.M)
ENUM = re.compile(r"^(?:pub )?enum (\w+) \{(.*?)^\}", re.S | re.M)
KEYWORDS = set("as bool break const continue else enum f32 f64 false fn for if impl in let loop match mut pub return self Self "
               "struct true u8 u32 u64 usize use while".split())


def bare(text):
    return re.sub(r"//.*", "", text)


def body(text):
    """A function's code, without its contract."""
    lines = [l for l in bare(text).split("\n") if not re.match(r"\s*(requires|ensures|×)\b", l)]
    return "\n".join(lines)


def shape(text):
    """The tokens with names by the order in which they come, and numbers and widths all alike."""
    names, out = {}, []
    for t in re.findall(r"[A-Za-z_]\w*|\d[\w.]*|\S", body(text)):
        if re.match(r"\d", t):
            t = "#"
        elif t in ("f32", "f64", "u8", "u32", "u64", "usize", "bool"):
            t = "type"
        elif re.match(r"[A-Za-z_]", t) and t not in KEYWORDS:
            t = names.setdefault(t, "n%d" % len(names))
        out.append(t)
    return tuple(out)


def groups_of(parameters):
    """The arrays and structs that a function takes, with no axis number."""
    found = re.findall(r"(\w+): (&(?:mut )?[\[\w<>', ;]+\]?|f32|u32|usize)", parameters)
    return {re.sub(r"\d$", "", n) for n, t in found}


def main():
    arguments = [a for a in sys.argv[1:] if not a.startswith("--")]
    root, listing = (arguments or ["."])[0], "--list" in sys.argv
    places = collections.OrderedDict()

    def put(point, where):
        places.setdefault(point, []).append(where)

    shapes, facts, taken = collections.defaultdict(list), collections.defaultdict(set), []
    for path in sorted(glob.glob(os.path.join(root, "crates/*/src/*.rt"))):
        crate = path.split("/")[-3]
        text = open(path, encoding="utf8").read()
        for name, variants in ENUM.findall(text):
            cases = re.findall(r"^\s+\w+(\(.*\))?,", bare(variants), re.M)
            if len(cases) == 2 and sum(1 for c in cases if c) == 1:
                put("1 enums of the shape of Option", f"{crate}: {name}")
            if "Refused(u32)" in variants:
                put("1 enums of the shape of Result, with a number for the refusal", f"{crate}: {name}")
        for indent, name, rest in FN.findall(text):
            code = body(rest)
            where = f"{crate}: {name}"
            if re.search(r"-> u32\b", code) and len(re.findall(r"^\s+(?:return )?\d+;?$", code, re.M)) > 0:
                put("1 functions that answer a rule's number", where)
            if len(shape(rest)) > 24:
                shapes[shape(rest)].append(where)
            for v in re.findall(r"for (\w+) in \S*\.\.", code):
                if v != "_" and re.search(r"\[[^\]]*\b%s\b[^\]]*\]" % v, code):
                    put("3 loops over an index of arrays", where)
            for v in re.findall(r"for \((\w+), .*enumerate", code):
                if re.search(r"\[[^\]]*\b%s\b[^\]]*\]" % v, code):
                    put("3 loops by `enumerate` that read another array by the index", where)
            put("3 other loops", where) if re.search(r"^\s*(while|loop|for _)\b", code, re.M) else None
            for x, n in re.findall(r"if (\w+) < (\w+) \{\s*(?:return )?\1(?: as \w+)?;?\s*\}(?: else)?\s*\{?\s*\2", code):
                put("4 the lesser of two by hand", where)
            for a in re.findall(r"\b(\w+) != \1\b", code):
                put("4 tests for NaN by hand", where)
            if re.search(r"\{ 1 \} else \{ 0 \}", code):
                put("4 numbers of a bool by hand", where)
            for f, v in re.findall(r"^\s+(\w+): (\w+)\.\1,", code, re.M):
                put("4 fields copied one by one", where)
            contract = "\n".join(re.findall(r"^\s+requires.*", bare(rest), re.M))
            for f in re.findall(r"\(?([^()×{}]+ [<≤≡] [^()×{}]+)\)?", contract):
                facts[re.sub(r"\s+", " ", f.strip())].add(where)
            taken.append((where, groups_of(rest.split("{")[0].split("->")[0])))
            for i in re.findall(r"\[([^\[\]]*(?:[*/%])[^\[\]]*)\]", code):
                if ".." not in i and ";" not in i:
                    put("6 places worked out in flat arrays", where)
    for tokens, where in shapes.items():
        if len(where) > 1:
            put("2 groups of functions of one shape", " = ".join(where))
    for fact, where in sorted(facts.items()):
        if len(where) > 2:
            put("5 facts that three or more functions ask for", f"{fact}: " + ", ".join(sorted(where)))
    for group in (("rates", "moments", "offsets", "held"), ("rates", "moments", "held"), ("moments", "cs", "ts"), ("words", "floats"),
                  ("dt", "rate", "moment"), ("steady", "first_dt_s"), ("amplitude", "duration_s", "washout_tc_s", "extension")):
        for where, names in taken:
            if set(group) <= names:
                put("5 functions that take " + ", ".join(group), where)
    for path in sorted(glob.glob(os.path.join(root, "crates/*/proofs/**/Answers.antt"), recursive=True)):
        if not re.match(r".*/proofs/Answers\.antt$", path):
            put("8 files of answers", path.split("crates/")[1])
            text = open(path, encoding="utf8").read()
            for _ in re.findall(r"^\S+ c = (?:search rules|refl)$", text, re.M):
                put("8 answers that are a search or `refl`", path.split("crates/")[1])
    for point in sorted(places):
        print(f"{len(places[point]):5} {point}")
        if listing:
            for where in places[point]:
                print("        " + where)


main()
