#!/usr/bin/env python3
"""Respells the names of this repository's definitions and lemmas in snake case: every-cut and putLe become every_cut and put_le.

usage: tools/respell.py [FOLDER]

It goes over specs/, proofs/ and the clauses of src/ below FOLDER/crates, in place, once, right after the toolchain's own port.py. Types and modules are in
camel case: the module `inner` of specs/ becomes `Inner`. Names of the library, of the code and of what Rattle makes keep their spelling. Where a lemma
would get a definition's name, it takes `_lem`; two names of one kind that fall together are told, and nothing is written.
"""
import os
import re
import sys

ROOT = sys.argv[1] if len(sys.argv) > 1 else "."
WORD = r"[^\s(){}.;,@\"«»\[\]\\]+"
TOKEN = re.compile(r"--(?= |$)[^\n]*|\"(?:[^\"\\]|\\.)*\"|" + WORD)
OLD = re.compile(r"[a-z][A-Za-z0-9_'₀-₉\-]*")
DECLARED = re.compile(r"^(?: *)(?:unfoldable |abbrev |pub |record |data )*([a-z][^\s:(){}]*)(?: :|$)")
# what Rattle makes for a proof, and what a proof says of it
MADE = re.compile(r"^(c|l|κs|tie|lts|goal)$")
# a name that would fall together with another definition's
OTHERWISE = {"exampleTypes": "sample_types"}


def is_old(word):
    return OLD.fullmatch(word) and (re.search("[A-Z]", word) or "-" in word)


def snake(word):
    word = re.sub(r"(?<=[a-z0-9])(?=[A-Z])", "_", word).lower()
    return word.replace("-", "_")


def files(ending):
    for folder, dirs, names in os.walk(os.path.join(ROOT, "crates")):
        dirs[:] = sorted(d for d in dirs if d != "out")
        for name in sorted(names):
            if name.endswith(ending):
                yield os.path.join(folder, name)


def read(path):
    with open(path, encoding="utf-8") as f:
        return f.read()


def crates():
    return {d for d in os.listdir(os.path.join(ROOT, "crates"))}


OWN = crates()


def is_own(path):
    """Whether a path of a `use` line leads into a crate of this repository."""
    parts = path.split(".")
    return parts[0] == "Rattle" and len(parts) > 1 and parts[1] in OWN


def imported(text):
    """The names that a file takes from elsewhere than this repository."""
    out = set()
    for path, names in re.findall(r"(?m)^(?:ghost )?use (\S+?)\.\{([^}]*)\}", text):
        if not is_own(path):
            for name in names.split(","):
                out |= set(name.split(" as "))
    return {it.strip() for it in out}


def declared():
    """Every name that specs/ or proofs/ declare at the top or as a field, with whether it is a definition's."""
    out = {}
    for path in files(".antt"):
        if path.endswith("/Proof.antt"):
            continue
        for line in read(path).split("\n"):
            m = DECLARED.match(line)
            if m:
                out[m[1]] = out.get(m[1], False) or "/specs/" in path
    return out


def table():
    names, new = declared(), {}
    taken = {}
    for name in names:
        to = OTHERWISE.get(name) or (snake(name) if is_old(name) else name)
        taken.setdefault(to, []).append(name)
    bad = []
    for to, group in taken.items():
        kept = [it for it in group if not is_old(it)]
        definitions = [it for it in group if names[it] and is_old(it)]
        lemmas = [it for it in group if not names[it] and is_old(it)]
        if definitions and kept and not any(names[it] for it in kept):
            lemmas, kept = lemmas + kept, []
        if len(kept) + len(definitions) > 1:
            bad.append((to, group))
        for it in definitions:
            new[it] = to
        for at, it in enumerate(sorted(lemmas)):
            alone = not kept and not definitions and at == 0
            new[it] = to if alone else to + "_lem" * (at + (1 if kept or definitions else 0))
    return new, bad


def path_before(text, at):
    """The path that ends in a dot right before place `at`."""
    m = re.search(r"((?:" + WORD + r"\.)+)$", text[max(0, at - 300) : at])
    return m[1] if m else ""


def turned(text, new, is_proof):
    skip = imported(text)

    def one(m):
        word = m[0]
        if word.startswith("--"):
            return re.sub(r"`([^`]*)`|\b[a-z][a-z0-9]*[A-Z]\w*", lambda k: re.sub(OLD, lambda w: new.get(w[0], w[0]), k[0]), word)
        if word not in new and not is_old(word):
            return word
        before = path_before(text, m.start())
        head = before.split(".")[0]
        if before:
            if MADE.match(head) or is_proof and not head == "Rattle":
                return word
            if head[:1].isupper() and head != "Rattle" or head == "Rattle" and not is_own(before.rstrip(".")):
                return word
            if head == "Rattle" and (".proofs." in before and re.search(r"\.(Tie|Statement|Lts|Goals|Given)\.$", before)):
                return word
            return new.get(word, snake(word)) if head == "Rattle" else snake(word)
        if word in skip:
            return word
        return new.get(word, snake(word))

    return TOKEN.sub(one, text)


def turned_source(text, new):
    camel = {k: v for k, v in new.items() if re.search("[A-Z]", k) and "-" not in k}
    return re.sub(r"(?<![\w\"])[a-z][a-z0-9]*(?:[A-Z][A-Za-z0-9]*)+\b", lambda m: camel.get(m[0], m[0]), text)


def main():
    new, bad = table()
    for to, group in bad:
        print(f"{to}: {', '.join(group)} fall together", file=sys.stderr)
    if bad:
        return 1
    for path in files(".antt"):
        text = read(path)
        to = turned(text, new, path.endswith("/Proof.antt"))
        to = re.sub(r"(\bRattle\.\w+\.specs\.)inner\b", r"\1Inner", to)
        if path.endswith("/specs/Lib.antt"):
            to = re.sub(r"(?m)^pub mod inner$", "pub mod Inner", to)
        if to != text:
            with open(path, "w", encoding="utf-8") as f:
                f.write(to)
    for path in files(".rt"):
        text = read(path)
        to = turned_source(text, new)
        to = re.sub(r"(\bRattle\.\w+\.specs\.)inner\b", r"\1Inner", to)
        if to != text:
            with open(path, "w", encoding="utf-8") as f:
                f.write(to)
    for crate in sorted(OWN):
        for old, to in (("specs/inner.antt", "specs/Inner.antt"), ("specs/inner", "specs/Inner")):
            old, to = (os.path.join(ROOT, "crates", crate, it) for it in (old, to))
            if os.path.exists(old):
                os.rename(old, to)
    return 0


if __name__ == "__main__":
    sys.exit(main())
