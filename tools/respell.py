#!/usr/bin/env python3
"""Brings the names of definitions and lemmas to today's spelling. Run once, at the top, after the toolchain's port.py.

usage: python3 tools/respell.py

Words become snake_case, records and other types CamelCase. Only names that the files of specs/ and proofs/ declare are
respelled; functions of src/, strings, inputs and outputs keep theirs. Names that would fall together get the other
name that APART gives. The library crate `bytes` becomes `octets`, since the toolchain has a library named bytes.
"""

import os
import re
import subprocess

TOKEN = re.compile(r"[^\s(){}\[\];,.@\"`]+")
DECLARED = re.compile(
    r"^\s*(?:(?:abbrev|unfoldable|pub) )*([^\s(){}\[\];,.@\"]+(?: [^\s(){}\[\];,.@\"]+)*) : "
    r"|^\s*(?:(?:pub|abbrev) )*(?:data|record) ([^\s(){}\[\];,.@\"]+)"
)
# a lemma whose plain respelling is the name of the definition that it is about, or of another lemma
APART = {
    "chain-told": "chain_told_is",
    "entry-of": "entry_of_part",
    "is-none": "none_is",
    "kind-of": "kind_of_verb",
    "none-twice": "none_twice_acts",
    "place-good": "good_place_is",
    "place-laid": "laid_place_is",
    "put-past": "past_put",
    "record-good": "good_record_is",
    "same-command": "command_same_is",
    "settled-by": "by_settled",
    "settled-past": "past_settled",
    "some-directors": "some_directors_is",
}
OLD_CRATE, NEW_CRATE = "bytes", "octets"


def files(*ends):
    for top in ("crates", "docs"):
        for folder, dirs, names in os.walk(top):
            dirs[:] = sorted(d for d in dirs if d != "out")
            for name in sorted(names):
                if name.endswith(ends) and not name.startswith("PORT"):
                    yield os.path.join(folder, name)
    yield "README.md"


def read(path):
    with open(path, encoding="utf-8") as f:
        return f.read()


def respelled(name):
    if name in APART:
        return APART[name]
    if name[0].isupper():
        return re.sub(r"-([a-z0-9])", lambda m: m[1].upper(), name)
    return re.sub(r"([a-z0-9'])([A-Z])", lambda m: m[1] + "_" + m[2].lower(), name).replace("-", "_")


def declared():
    names = set()
    for path in files(".antt"):
        if not re.fullmatch(r"crates/\w+/(?:specs|proofs)/\w+\.antt", path):
            continue
        for line in read(path).split("\n"):
            m = DECLARED.match(line)
            if m:
                names |= set((m[1] or m[2]).split())
    return {n: respelled(n) for n in names if respelled(n) != n}


def crate_renamed(path, text):
    text = text.replace(f"Rattle.{OLD_CRATE}.", f"Rattle.{NEW_CRATE}.")
    if path.endswith((".rt", ".edit")):
        text = re.sub(rf"(?<![\w.:]){OLD_CRATE}::", f"{NEW_CRATE}::", text)
    return text


def main():
    names = declared()
    for path in files(".antt", ".rt", ".edit", ".md"):
        old = read(path)
        new = TOKEN.sub(lambda m: names.get(m[0], m[0]), old)
        new = crate_renamed(path, new)
        if new != old:
            with open(path, "w", encoding="utf-8") as f:
                f.write(new)
    if os.path.isdir(f"crates/{OLD_CRATE}"):
        subprocess.run(["git", "mv", f"crates/{OLD_CRATE}", f"crates/{NEW_CRATE}"], check=True)
    lines = read("crates.txt").split("\n")
    lines = [re.sub(rf"\b{OLD_CRATE}\b", NEW_CRATE, line) for line in lines]
    with open("crates.txt", "w", encoding="utf-8") as f:
        f.write("\n".join(lines))
    print(f"{len(names)} names respelled")


if __name__ == "__main__":
    main()
