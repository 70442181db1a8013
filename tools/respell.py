#!/usr/bin/env python3
"""Spells the names that specs/ and proofs/ declare as today's Rattle spells names: words in snake case, a dash only between two names.

usage: tools/respell.py [--list] [FOLDER]

FOLDER is a checkout on which the kit's own script for older repositories has just run; the default is this one. It is run once, right behind
that script. Types and modules keep their upper camel case. Functions of src/, exported names, strings, inputs and outputs are not touched: in
a source only a ghost name in camel case turns, which no name of Rattle's has.
"""

import collections
import glob
import os
import re
import sys

NAME = r"[^\s(){}\[\].;,@\"«»`]+"
TOKEN = re.compile(r"(?<![^\s(){}\[\].;,@\"«»`])" + NAME)
MODIFIERS = r"(?:(?:abbrev|pub|unfoldable|opaque|private|mutual) )*"
DECLARED = [
    re.compile(rf"^{MODIFIERS}()({NAME}) :(?: |$)", re.M),
    re.compile(rf"^  +(pub) ({NAME}) :(?: |$)", re.M),
    re.compile(rf"^{MODIFIERS}(record|data) (?:pub )?({NAME})", re.M),
]
IMPORTED = re.compile(r"^(?:ghost )?use ([\w.]+)\.\{([^}]*)\}", re.M)
# Parts of a name that the kit's own script has spelled anew where they stand alone.
PARTS = {"getD": "get_or", "putD": "put_or"}


def snake(word):
    return re.sub(r"(?<=[a-z0-9])([A-Z])", lambda m: "_" + m[1].lower(), word)


def read(path):
    with open(path, encoding="utf-8") as file:
        return file.read()


def in_function_folder(path):
    """Whether the file is of one function's proof: a lemma file of a crate may be called Answers.antt too, right in proofs/."""
    name, folder = os.path.basename(path), os.path.basename(os.path.dirname(path))
    return name in ("Proof.antt", "Answers.antt", "Invariants.antt") and folder != "proofs"


def declared(paths):
    found = collections.OrderedDict()
    for path in paths:
        for rule in DECLARED:
            for match in rule.finditer(read(path)):
                found.setdefault(match[2], path)
    return found


def spelling(name, defined):
    """The new spelling of one name, or the name itself."""
    if name[0].isupper() and "-" not in name:
        return name
    parts = [PARTS.get(p, p if p[:1].isupper() else snake(p)) for p in name.split("-")]
    out, at, plain = "", 0, False
    while at < len(parts):
        # The longest run of parts that is a name by itself; behind a plain word there is none.
        ends = [n for n in range(len(parts), at, -1) if "_".join(parts[at:n]) in defined or not parts[at].isidentifier()]
        end = ends[0] if ends and not plain and n_names(parts, at, ends[0]) else at + 1
        named = bool(ends) and not plain
        out += ("" if not out else "-" if named else "_") + "_".join(parts[at:end])
        plain, at = plain or not named, end
    return out


def n_names(parts, at, end):
    return end > at and parts[at].isidentifier()


def table(root):
    specs = sorted(glob.glob(root + "/crates/*/specs/*.antt"))
    lemmas = sorted(p for p in glob.glob(root + "/crates/*/proofs/**/*.antt", recursive=True) if not in_function_folder(p))
    of_specs, of_proofs = declared(specs), declared(lemmas)
    imported = set()
    for path in specs + lemmas:
        for match in IMPORTED.finditer(read(path)):
            if not re.match(r"Rattle\.(?!std|core)", match[1]):
                imported |= {n.split(" as ")[0].strip() for n in match[2].split(",")}
    words = {n for n in imported if n.isidentifier() and not n[0].isupper()}
    defined = {snake(n) for n in of_specs if "-" not in n} | words
    turned = {}
    for name in list(of_specs) + list(of_proofs):
        new = spelling(name, defined)
        if new != name:
            turned[name] = new
    # A lemma that would have a definition's name, or another lemma's, gets an ending.
    taken = collections.defaultdict(set)
    for name in set(of_specs) | set(of_proofs) | imported:
        taken[turned.get(name, name)].add(name)
    for new, names in sorted(taken.items()):
        lemmas_of_it = sorted((n for n in names if n in of_proofs and n not in of_specs and n not in imported - set(of_proofs)), key=lambda n: ("-" in n, n))
        keep = len(names) - len(lemmas_of_it)
        for name in lemmas_of_it if len(names) > 1 and keep == 1 else lemmas_of_it[1:] if len(names) > 1 else []:
            turned[name] = new + "_lem"
            print(f"{name} would fall together with {sorted(names - {name})} and is {turned[name]}", file=sys.stderr)
        if keep > 1:
            print(f"fall together: {sorted(names)}", file=sys.stderr)
    return turned


def turn_antt(text, turned, function):
    def one(match):
        word = match[0]
        if function and "-" in word and match.start() and text[match.start() - 1] == ".":
            return word
        return turned.get(word, word)

    return TOKEN.sub(one, text)


def turn_rt(text, turned):
    """Ghost names in camel case, in clauses, imports and comments. A function of the source may have the same name."""
    camel = {n: t for n, t in turned.items() if re.search(r"[a-z0-9][A-Z]", n) and "-" not in n}
    def one(match):
        word = match[0]
        if word not in camel:
            return word
        return camel[word]

    return TOKEN.sub(one, text)


def main():
    words = [w for w in sys.argv[1:] if not w.startswith("--")]
    root = words[0] if words else os.path.join(os.path.dirname(os.path.abspath(__file__)), "..")
    turned = table(root)
    if "--list" in sys.argv:
        for old, new in sorted(turned.items()):
            print(f"{old}\t{new}")
        return
    for path in sorted(glob.glob(root + "/crates/**/*", recursive=True)):
        if path.endswith(".antt"):
            text = read(path)
            new = turn_antt(text, turned, in_function_folder(path))
        elif path.endswith(".rt"):
            text = read(path)
            new = turn_rt(text, turned)
        else:
            continue
        if new != text:
            with open(path, "w", encoding="utf-8") as file:
                file.write(new)


main()
