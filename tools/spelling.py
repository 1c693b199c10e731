#!/usr/bin/env python3
"""Brings the definitions and lemmas of specs/ and proofs/ from lower camel case to snake case, as Rattle spells them today, where they
are declared and wherever they are named: in specs/, in proofs/, in clauses and in must-fail edits. Run once, at the top of the
repository, right after the kit's own scripts. Names of Rust functions, strings, inputs and outputs stay."""
import pathlib
import re

DECLARED = re.compile(r"^\s*(?:abbrev pub |unfoldable pub |pub |abbrev |unfoldable )?([a-z][^\s:{}()]*)(?: [^\s:]+)* : ")
NAME = re.compile(r"(?<![\w'-])[a-z][\w']*(?:-[\w'₀-₉+≤<]+)*")
# Annotations are one word each, and so are the two locations of the worked cases.
WHOLE = {"RCpc": "Rcpc", "RCsc": "Rcsc", "XY": "Xy"}
# What the kit renamed, where it stands in a lemma's name.
KIT = {"getD": "get_or"}
# Lemmas that would have the name of the definition that they speak of, and where they are named.
LEMMAS = {
    "closed_at": ["states/proofs/PersistLaws.antt"],
    "given_word": ["capi/proofs/FitLaws.antt"],
    "handed_out": ["bench/specs/Stronger.antt", "bench/proofs/StrongerLaws.antt"],
    "is_open": ["order_facts/proofs/WriteLaws.antt"],
    "none_passed": ["dependency_lines/proofs/PassingLaws.antt"],
    "read_table": ["writer/proofs/ReadBackLaws.antt", "writer/proofs/RoundTrip.antt"],
}


def snake(name):
    """The name in snake case, part by part."""
    return "-".join(KIT.get(part) or snake_part(part) for part in name.split("-"))


def snake_part(part):
    for word, written in WHOLE.items():
        part = part.replace(word, written)
    if not re.match("[a-z]", part):
        return part
    return re.sub(r"_?([A-Z])", lambda it: "_" + it[1].lower(), part)


def main():
    files = [p for p in sorted(pathlib.Path("crates").rglob("*")) if p.suffix in (".antt", ".rt", ".edit") and "out" not in p.parts]
    declared = set()
    for path in files:
        if path.suffix == ".antt":
            found = (DECLARED.match(line) for line in path.read_text().splitlines())
            declared |= {it[1] for it in found if it and re.search("[A-Z]", it[1])}
    written = {name: snake(name) for name in declared}
    for path in files:
        text = path.read_text()
        apart = {name: name + "_lem" for name, where in LEMMAS.items() if str(path.relative_to("crates")) in where}
        turned = NAME.sub(lambda it: apart.get(it[0]) or written.get(it[0], it[0]), text)
        if turned != text:
            path.write_text(turned)
    print(f"spelling: {len(written)} names")


if __name__ == "__main__":
    main()
