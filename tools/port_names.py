#!/usr/bin/env python3
"""Brings the names of this repository's own definitions and lemmas to the spelling of today's Rattle: words in snake case.

usage: tools/port_names.py        at the top of the repository, once, after the kit's port.py and before any edit by hand

Renamed are the functions, lemmas and fields that a file of crates/NAME/specs/ or crates/NAME/proofs/ declares, wherever a file of the crates, a
must-fail edit or a page of docs/ names them, and, within its own file, what a proof of a function declares for itself. Types, records and modules
have their camel case already. Functions of src/, strings and what Rattle itself names are left alone. Where a lemma would get the name of a
definition, it gets `_lem`. Names that fall together all the same are printed, and nothing is written.
"""
import collections
import os
import re
import sys

ROOT = os.path.dirname(os.path.dirname(os.path.realpath(__file__)))
# In a string or a comment a name is left alone by the first two.
TOKEN = re.compile(r"\"(?:[^\"\\]|\\.)*\"|[^\s(){}\[\];.,«»\"⌜⌝`]+")
DECLARES = re.compile(r"^(\s*)((?:(?:pub|abbrev|unfoldable|axiom) )*)((?:record |data )?)([^\s:({\[]+)(?: [^:]*?)? :(?: (.*)|$)")
# A lemma that would get the name of a definition, and the crates in which its name is the lemma's.
LEMMAS = {
    "call_length": ("call_length_lem", "taskfile roundtrip"),
    "call-payload": ("call_payload_lem", "*"),
    "call-place": ("call_place_lem", "*"),
    "comes-after": ("comes_after_lem", "*"),
    "filling-length": ("filling_length_lem", "*"),
    "head-length": ("head_length_lem", "*"),
    "head-payload": ("head_payload_lem", "*"),
    "is_home": ("is_home_lem", "promises"),
    "is-linked": ("is_linked_lem", "promises"),
    "is-sound": ("is_sound_lem", "*"),
    "key-at": ("key_at_lem", "*"),
    "opened-machine": ("opened_machine_lem", "*"),
    "passage-at": ("passage_at_lem", "*"),
    "passage-length": ("passage_length_lem", "*"),
    "passage-payload": ("passage_payload_lem", "*"),
    "passage-place": ("passage_place_lem", "*"),
    "row-length": ("row_length_lem", "*"),
    "row-payload": ("row_payload_lem", "*"),
    "rows-at": ("rows_at_lem", "*"),
    "spot-of": ("spot_of_lem", "*"),
    "stopped_by": ("stopped_by_lem", "*"),
    "width-at": ("width_at_lem", "*"),
}


def snake(name):
    name = name.replace("-", "_").replace("′", "'")
    return re.sub(r"(?<=[a-z0-9])[A-Z]", lambda m: "_" + m.group(0).lower(), name)


def files():
    for top, dirs, names in os.walk(os.path.join(ROOT, "crates")):
        dirs[:] = sorted(d for d in dirs if d != "out")
        for name in sorted(names):
            if name.endswith((".antt", ".rt", ".edit")):
                yield os.path.join(top, name)


def declared(text):
    for line in text.split("\n"):
        m = DECLARES.match(line)
        if m and not line.lstrip().startswith("--"):
            yield m.group(4), m.group(5) or ""


def turn(text, name_of):
    return TOKEN.sub(lambda m: name_of(m.group(0), text[m.start() - 1 : m.start()] == "."), text)


def main():
    texts = {}
    for path in files():
        with open(path, encoding="utf-8") as f:
            texts[path] = f.read()
    short = lambda path: os.path.relpath(path, os.path.join(ROOT, "crates"))
    shared, own = collections.defaultdict(set), collections.defaultdict(set)
    for path, text in texts.items():
        parts = short(path).split("/")
        if not path.endswith(".antt"):
            continue
        if parts[1] == "specs" or len(parts) == 3:
            for name, _ in declared(text):
                shared[name].add(short(path))
        else:
            # what a generated module asks for by name keeps that name, until the proof is turned
            for name, kind in declared(text):
                if not kind.startswith("tie.") and not name.endswith("-spec"):
                    own[path].add(name)
    plain = {n: snake(n) for n in shared if n[0].islower() and snake(n) != n}
    at_crates = lambda name, crate: name in LEMMAS and (LEMMAS[name][1] == "*" or crate in LEMMAS[name][1].split())

    def shared_name(name, path, projected=False):
        crate, determined = short(path).split("/")[0], path.endswith("Determined.antt")
        # behind a dot it is what Rattle names after a call
        if at_crates(name, crate) and not determined and not projected:
            return LEMMAS[name][0]
        return plain.get(name, name)

    # Names that fall together: two of one file, or one that a file had already
    wrong = []
    for path, text in texts.items():
        if path.endswith(".antt") and not path.endswith("Determined.antt"):
            new = collections.defaultdict(set)
            for name in {n for n, _ in declared(text)} | own[path]:
                new[shared_name(name, path) if name not in own[path] else snake(name)].add(name)
            wrong += [(short(path), n, sorted(o)) for n, o in new.items() if len(o) > 1]
    for it in wrong:
        print("names fall together:", *it)
    if wrong and "--anyway" not in sys.argv:
        sys.exit(1)
    many = 0
    for path, text in texts.items():
        mine = {n: snake(n) for n in own[path] if n[0].islower()}
        if path.endswith(".edit"):
            # only the texts, and not the words that lead them
            out = "\n".join(re.sub(r"(?<=^old: )(.*)$|(?<=^new: )(.*)$", lambda m: turn(m.group(0), lambda w, p: shared_name(w, path, p)), l) for l in text.split("\n"))
        else:
            out = turn(text, lambda w, p: mine.get(w) or shared_name(w, path, p))
        if out != text:
            many += 1
            with open(path, "w", encoding="utf-8") as f:
                f.write(out)
    print(f"{len(plain)} names, {many} files")
    pages = [os.path.join(ROOT, "README.md")]
    for top, _, names in os.walk(os.path.join(ROOT, "docs")):
        pages += [os.path.join(top, n) for n in names if n.endswith(".md") and not n.startswith("PORT")]
    for path in pages:
        with open(path, encoding="utf-8") as f:
            text = f.read()
        # in a page a name stands between `..`; a lemma that got `_lem` is put in by hand
        out = re.sub(r"`[^`\n]+`", lambda m: turn(m.group(0), lambda w, p: w if w in LEMMAS else plain.get(w, w)), text)
        if out != text:
            with open(path, "w", encoding="utf-8") as f:
                f.write(out)
            print(os.path.relpath(path, ROOT))


main()
