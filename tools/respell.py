#!/usr/bin/env python3
"""Brings the repository's own definitions and lemmas to snake case, in specs/, proofs/ and the clauses of src/.

    python3 tools/respell.py [--list]      at the top of the repository; --list only prints the names

A name is the repository's own where a file of specs/ or proofs/ declares it. Names of Rust functions, types and files
keep their spelling, and so do the names that the check makes for goals and steps.
"""
import collections, pathlib, re, sys

# Names that would fall together with a name of the library, or with another of the repository's own.
OTHERS = {
    "bit-and": "bit_of_and",
    "bit-or": "bit_of_or",
    "bookWorth": "worth_of_book",
    "freeWorth": "worth_of_free",
    "getD-paired": "get_or_paired",
    "group-from": "group_from_is",
    "groupCount": "count_of_groups",
    "groupsWorth": "worth_of_groups",
    "histories-hold": "all_histories_hold",
    "is-blocked": "blocked_is",
    "lackWorth": "worth_of_lack",
    "next-part": "next_part_is",
    "outsideWorth": "worth_of_outside",
    "productAt": "nth_product",
    "productWorth": "worth_of_product",
    "single-fits": "single_fits_held",
    "single-from": "single_from_is",
    "withPart": "set_with",
}

WORD = r"[^\s(){}\[\].,;:=λ→×]+"
COMMENT = re.compile(r"(--[ -].*|--$|//.*)", re.M)


def snake(name):
    name = re.sub(r"(?<=[a-z0-9])(?=[A-Z])", "_", name)
    return "_".join(w.lower() if w[:1].isupper() and not w.isupper() else w for w in name.replace("-", "_").split("_"))


def declared(path):
    text = COMMENT.sub("", path.read_text())
    in_function = "/proofs/" in str(path) and path.name in ("Answers.antt", "Invariants.antt", "Choices.antt", "Proof.antt")
    for m in re.finditer(r"(?m)^[ \t]*(?:(?:abbrev|unfoldable|pub)[ \t]+)*(%s)[ \t]*:[ \t](.*)$" % WORD, text):
        name, type_ = m.group(1), m.group(2)
        if in_function and type_.strip().startswith("goal."):
            continue
        if re.match(r"[a-z]", name) and (re.search(r"[a-z0-9][A-Z]", name) or re.search(r"[A-Za-z0-9]-[A-Za-z0-9]", name)):
            yield name


def main():
    files = sorted(p for p in pathlib.Path("crates").rglob("*") if p.suffix in (".antt", ".rt") and "out" not in p.parts)
    names = collections.OrderedDict()
    for p in files:
        if p.suffix == ".antt":
            for n in declared(p):
                names.setdefault(n, OTHERS.get(n, snake(n)))
    words = collections.defaultdict(set)
    for p in files:
        for w in re.findall(WORD, COMMENT.sub("", p.read_text())):
            words[w].add(str(p))
    if "--list" in sys.argv:
        for n, to in names.items():
            print(n, "->", to, "FALLS TOGETHER " + " ".join(sorted(words[to])[:3]) if to in words else "")
        twice = [to for to, k in collections.Counter(names.values()).items() if k > 1]
        print("twice:", twice)
        return
    token = re.compile(r"(?<![^\s(){}\[\].,;:=λ→×])(%s)(?![^\s(){}\[\].,;:=λ→×])" % "|".join(re.escape(n) for n in sorted(names, key=len, reverse=True)))
    for p in files:
        text = p.read_text()
        parts = COMMENT.split(text)
        for i in range(0, len(parts), 2):
            parts[i] = token.sub(lambda m: names[m.group(1)], parts[i])
        for i in range(1, len(parts), 2):
            parts[i] = re.sub(r"`(%s)`" % WORD, lambda m: "`%s`" % names.get(m.group(1), m.group(1)), parts[i])
        new = "".join(parts)
        if new != text:
            p.write_text(new)


main()
