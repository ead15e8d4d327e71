#!/usr/bin/env python3
"""Brings the repository's own names to today's spelling: words, lemmas, fields and constructors in snake case, types in camel case.

Run once, at the top, after the kit's port.py; the port of docs/PORT.md used it so. It goes by text, over .antt and .rt files,
must-fail edits, and what stands in backticks in the pages. A name with a capital inside gets underscores. In a name with dashes that
a file of specs/ or proofs/ declares, a dash stays where it joins names alone, as in `patched-length`, and is an underscore
where one of them is a plain word, and in a field or a constructor; a lemma that would then have the name of a word gets `_lem`, and a field `has_`.
The choice of crates/lists is named anew (`otherwise`, below). It prints the names that fall together in a file, for a person to look at.
"""

import glob
import re
import sys

TOKEN = re.compile(r"[A-Za-z_◌ℓμ'₀-₉0-9][\w'◌₀-₉-]*")
DECLARED = re.compile(r"^ *(?:abbrev |unfoldable |pub )*(?:data |record )?(?![-–]{2})([^\s(){}:;]+)(?: \{[^{}]*\})* :", re.M)
# words of the kit that a lemma's name may be joined to by a dash
KIT = set("if length drop take append set replicate true false zero suc cons nil get_or length min max reverse".split())


def snake(name):
    return re.sub(r"(?<=[a-z0-9])[A-Z]+", lambda m: "_" + m[0].lower(), name)


def read(path):
    with open(path, encoding="utf-8") as f:
        return f.read()


def is_low(name):
    return re.match(r"◌?[a-zμ]", name)


def camel(name):
    """The name with underscores for its capitals; a type's name stays."""
    return snake(name) if is_low(name) and re.search(r"[a-z0-9][A-Z]", name) else name


def dashes(name, words):
    """A dash joins two names; a plain word is added with an underscore."""
    parts = name.split("-")
    return ("-" if all(it in words for it in parts) else "_").join(parts)


def texts():
    for kind in ("specs/**/*.antt", "proofs/**/*.antt", "src/**/*.rt", "must-fail/*.edit"):
        yield from sorted(glob.glob("crates/*/" + kind, recursive=True))


def declared(pattern):
    found = set()
    for p in glob.glob(pattern):
        found |= {it for it in DECLARED.findall(read(p)) if TOKEN.fullmatch(it)}
    return found


def fields(pattern):
    """The fields of records and the constructors of data."""
    found = set()
    for p in glob.glob(pattern):
        inside = False
        for line in read(p).split("\n"):
            if re.match(r"(pub )?(record|data)\b", line):
                inside = True
            elif line and not line.startswith((" ", "--")):
                inside = False
            m = re.match(r"  (?:pub )?([^\s(){}:;]+) :", line)
            if inside and m and TOKEN.fullmatch(m[1]):
                found.add(m[1])
    return found


def otherwise(text):
    """Today's library has an `if◌then◌else◌` of its own, which opens by itself; ours, which stays shut, is `if◌then◌otherwise◌`."""
    lines = []
    for line in text.split("\n"):
        code, mark, comment = line.partition("--")
        code = code.replace("if◌then◌else◌", "if◌then◌otherwise◌")
        lines.append(re.sub(r"(?<![\w'◌-])else(?![\w'◌-])", "otherwise", code) + mark + comment)
    return "\n".join(lines)


def main():
    in_specs = declared("crates/*/specs/*.antt")
    every = in_specs | declared("crates/*/proofs/*.antt")
    lemmas = {it for p in glob.glob("crates/*/proofs/*.antt") for it in re.findall(r"(?m)^(?:abbrev |pub )*([^\s(){}:;]+)(?: \{[^{}]*\})* :", read(p))}
    of_records = fields("crates/*/specs/*.antt") | fields("crates/*/proofs/*.antt")
    words = {camel(it) for it in in_specs if "-" not in it} | KIT
    taken = {camel(it) for it in every if "-" not in it}
    own = {}
    for it in sorted(every):
        if "-" in it and is_low(it):
            own[it] = it.replace("-", "_") if it in of_records else dashes(camel(it), words)
            if own[it] in taken:
                own[it] = own[it] + "_lem" if it in lemmas or it not in of_records else "has_" + own[it]

    def turn(m):
        name = m[0]
        if name in own:
            return own[name]
        return camel(name)

    for p in texts():
        old = read(p)
        new = TOKEN.sub(turn, old)
        if p.endswith(".antt") or "\nfile: specs/" in new:
            new = otherwise(new)
        before, after = set(TOKEN.findall(old)), {}
        for it in before:
            after.setdefault(own.get(it, camel(it)), set()).add(it)
        for to, froms in sorted(after.items()):
            if len(froms) > 1:
                print(f"look: {p}: {' and '.join(sorted(froms))} are {to} now")
        if new != old:
            with open(p, "w", encoding="utf-8") as f:
                f.write(new)

    for p in ["README.md", *sorted(glob.glob("docs/**/*.md", recursive=True))]:
        old = read(p)
        new = re.sub(r"`[^`\n]+`", lambda m: TOKEN.sub(turn, m[0]), old)
        if new != old:
            with open(p, "w", encoding="utf-8") as f:
                f.write(new)
    for a, b in sorted(own.items()):
        if a != b:
            print(f"named: {a} {b}")


if __name__ == "__main__":
    sys.exit(main())
