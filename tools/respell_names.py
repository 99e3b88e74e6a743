#!/usr/bin/env python3
"""Respells the repository's own names in specs/ and proofs/ as today's Rattle spells names.

usage: python3 tools/respell_names.py [--list]      at the top of the repository, once, after port.py

Words are in snake case: `countWhere` becomes `count_where`, and a dash that joins plain words an underscore. A dash stays where
it joins the names of two definitions in that of a lemma, as in `drop-map`; a field or a constructor has none. Types, facts and
modules keep their capitals. Names that Rust code declares are left alone, and so are strings and everything outside `crates/`
but the pages of docs/ and README.md, where names stand in backticks. The proofs of single functions (proofs/F/Proof.antt) keep their own names of goals:
there only what they cite is respelled. --list prints the old and new names and changes nothing.
"""

import os
import re
import sys

NAME = r"[^\s(){}\[\];,.:@\"«»`\\]+"
TOKEN = re.compile(r'--[^\n]*|"(?:[^"\\\n]|\\.)*"|' + NAME)
HEAD = r"(?:(?:abbrev|unfoldable|pub|private)\s+)*"
TICKED = re.compile(r"`[^`\n]+`")
# Words of antt that open a line as a declaration does.
KEYWORDS = {"use", "mod", "open", "unfolding", "where", "let", "in", "elim", "record", "data", "ruleset"}


def read(path):
    with open(path, encoding="utf-8") as it:
        return it.read()


def files(root, ending):
    for folder, folders, names in os.walk(os.path.join(root, "crates")):
        folders[:] = sorted(it for it in folders if it != "out")
        for name in sorted(names):
            if name.endswith(ending):
                yield os.path.join(folder, name)


def is_walk(path):
    return path.endswith(("/Proof.antt", "/Answers.antt", "/Invariants.antt")) and path.count("/") > 4


def declared(text):
    """The names that a file declares: of definitions and lemmas, constructors and fields."""
    kind = None
    for line in text.split("\n"):
        of_type = re.match(HEAD + r"(data|record)\s+(" + NAME + ")", line)
        if of_type:
            kind = of_type[1]
            yield of_type[2], kind
            continue
        own = re.match(HEAD + "(" + NAME + r")\s+:(?:\s|$)", line)
        if own and own[1] not in KEYWORDS and not line.startswith((" ", "--")):
            yield own[1], "definition"
            kind = None
            continue
        if re.match(r"\S", line) and not line.startswith("--"):
            kind = None
        inner = re.match(r"  (?:pub )?(" + NAME + r")\s+:(?:\s|$)", line)
        if kind and inner:
            yield inner[1], "constructor" if kind == "data" else "field"
            continue
        # within a `module _` or a `where`, where dashes stay
        nested = re.match(r" +" + HEAD + "(" + NAME + r")\s+:(?:\s|$)", line)
        if nested and re.search("[a-z][A-Z]", nested[1]):
            yield nested[1], "definition"


def snake(word):
    return re.sub(r"(?<=[a-z0-9'])(?=[A-Z])", "_", word).lower()


def library_names(root):
    """The names that the crates import from modules that are not the repository's."""
    crates = set(os.listdir(os.path.join(root, "crates")))
    out = set()
    for path in [*files(root, ".antt"), *files(root, ".rt")]:
        for use in re.finditer(r"^(?:ghost )?use ([\w.'-]+)\.\{([^}]*)\}", read(path), re.M):
            if not any(use[1].startswith(f"Rattle.{it}.") for it in crates):
                out |= {it.split(" as ")[0].strip() for it in use[2].split(",")}
    return out


def table(root):
    """The names that the repository declares, those that it imports, and the new spelling of its own."""
    own = {}
    for path in files(root, ".antt"):
        for name, kind in declared(read(path)):
            if not is_walk(path):
                own.setdefault(name, kind)
    library = library_names(root)
    words = {snake(it) for it in own if "-" not in it} | {it for it in library if "-" not in it}
    words = {it for it in words if re.match(r"[a-z]", it)} - PLAIN
    new = {}
    for name, kind in own.items():
        if name in library or kind in ("data", "record"):
            continue
        if not re.search(r"[a-z]", name) or "◌" in name:
            continue
        # A part that is spelled as a type is the type's name.
        parts = [it if it[:1].isupper() else snake(it) for it in name.split("-")]
        of_two = kind == "definition" and len(parts) == 2 and all(it in words or it[:1].isupper() for it in parts)
        out = ("-" if of_two else "_").join(parts)
        if out != name:
            new[name] = out
    # A lemma that would have its definition's name gets `_lem`.
    taken = {}
    for name in own:
        taken.setdefault(new.get(name, name), set()).add(name)
    for name, of in taken.items():
        for it in of if len(of) > 1 else ():
            if not re.search("[a-z][A-Z]", it) and it not in RUST and own[it] == "definition" and (it != name or not defines(of)):
                new[it] = name + "_lem"
    return own, library, new


def defines(names):
    """Whether, of names that fall together, none but that in snake case can be the definition."""
    return not any(re.search("[a-z][A-Z]", it) for it in names)


# Names that code declares too, and a `where` block.
RUST = {"in_range", "one_more"}
# Plain words that also name definitions somewhere: a dash beside them joins a phrase, not two definitions.
PLAIN = set(
    "of at in is by to no or and not as all none one some any left right first last next same here there more done new old under"
    " over open the with end from own read room number place past given back for up so".split()
)


def clashes(own, library, new):
    taken = {}
    for name in own:
        taken.setdefault(new.get(name, name), set()).add(name)
    for name, of in sorted(taken.items()):
        if len(of) > 1 or (name in library and of != {name}):
            yield name, sorted(of), name in library


def turn_antt(text, new):
    def one(found):
        it, text = found[0], found.string
        if it.startswith("--"):
            return TICKED.sub(lambda t: "`" + TOKEN.sub(one, t[0][1:-1]) + "`", it)
        # A name of a path or a field may be the code's: of what is in snake case already only the bare name is respelled.
        bare = text[found.start() - 1 : found.start()] != "." and text[found.end() : found.end() + 1] != "."
        return new.get(it, it) if not it.startswith('"') and (bare or not re.fullmatch("[a-z0-9_]+", it)) else it

    return TOKEN.sub(one, text)


def turn_rust(text, new):
    """Only ghost lines, clauses and what stands in backticks in comments."""
    camel = {a: b for a, b in new.items() if re.fullmatch(r"[a-z]\w*[A-Z]\w*", a)}
    out = []
    for line in text.split("\n"):
        code, slash, comment = line.partition("//") if '"' not in line else (line, "", "")
        code = re.sub(r'"(?:[^"\\]|\\.)*"|[A-Za-z_]\w*', lambda t: camel.get(t[0], t[0]), code)
        comment = TICKED.sub(lambda t: "`" + new.get(t[0][1:-1], t[0][1:-1]) + "`", comment)
        out.append(code + slash + comment)
    return "\n".join(out)


def turn_edit(text, new):
    """Only what is looked for and what is written: the rest says in words what is wrong."""
    lines = [turn_antt(it, new) if it.startswith(("old:", "new:")) else it for it in text.split("\n")]
    return "\n".join(lines)


def turn_page(text, new):
    return TICKED.sub(lambda t: "`" + re.sub(NAME, lambda w: new.get(w[0], w[0]), t[0][1:-1]) + "`", text)


def main(argv):
    root = "."
    own, library, new = table(root)
    if "--list" in argv:
        for a, b in sorted(new.items()):
            print(a, b)
        for name, of, lib in clashes(own, library, new):
            print("clash:", name, of, "library" if lib else "")
        return 0
    pages = [os.path.join(d, f) for d, ds, fs in os.walk("docs") for f in fs if f.endswith(".md")] + ["README.md"]
    turns = [(it, turn_antt) for it in files(root, ".antt")] + [(it, turn_rust) for it in files(root, ".rt")]
    turns += [(it, turn_edit) for it in files(root, ".edit")] + [(it, turn_page) for it in sorted(pages)]
    for path, turn in turns:
        before = read(path)
        after = turn(before, new)
        if after != before:
            with open(path, "w", encoding="utf-8") as it:
                it.write(after)
    return 0


if __name__ == "__main__":
    raise SystemExit(main(sys.argv[1:]))
