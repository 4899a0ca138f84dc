#!/usr/bin/env python3
"""unused_lemmas.py [CRATE..]: lists the lemmas of crates/*/proofs that nothing names.

Run it anywhere in the repository. A lemma is a name with a type, or a record, in a file of proofs/. It is named where an
answer, an invariant, a definition of specs/, a source or another lemma that is itself named cites it. An import counts as
naming where the importing file never writes the name, since a tactic may take it from there. A crate that answers for no
function, as one of worked rows, is left out: its facts stand for themselves. What stands here may go; prove the crate
afterwards all the same.
"""
import pathlib
import re
import sys

TOP = pathlib.Path(__file__).resolve().parent.parent
# Files that the checker reads for one function. What they define is the answer itself.
ANSWERS = {"Answers", "Invariants", "Proof", "Send", "Sync"}
DEFINES = re.compile(r"^(\s*)((?:pub |abbrev |unfoldable |irreducible )*)([^\s:(){}]+) :(?:\s|$)")
SHAPES = re.compile(r"^(\s*)(?:pub )?(?:record|data) ([^\s:(){}]+)")
MODULES = re.compile(r"^\s*(?:pub |ghost )*use (?:Rattle\.)?(\w+)\.proofs\.([\w.]+) as ")
IMPORTS = re.compile(r"^\s*(?:pub |ghost )*use (?:Rattle\.)?(\w+)\.proofs\.([\w.]+)\.\{([^}]*)\}")


def words(line):
    """The names on a line, without its comment."""
    return set(re.findall(r"[^\s(){};,.@\[\]]+", line.split("--")[0]))


def is_named(name, found):
    """Whether the words have the name; an operator is named by its parts."""
    parts = [part for part in name.split("◌") if part]
    return all(part in found for part in parts) if parts else True


class File:
    """A file of proofs: what it imports, and the words of each of its definitions."""

    def __init__(self, crate, path):
        self.crate, self.path = crate, path
        inner = path.relative_to(TOP / "crates" / crate / "proofs").with_suffix("")
        self.module = ".".join(inner.parts)
        self.is_answer = inner.name in ANSWERS
        self.imports, self.modules, self.lemmas, self.loose = [], [], {}, set()
        self.read()

    def define(self, lemma, number, line):
        """A name may stand twice in a file, in two of its modules: its words are those of both."""
        first, found = self.lemmas.get(lemma, (number, set()))
        self.lemmas[lemma] = (first, found | words(line) - {lemma})

    def read(self):
        lemma, shape = None, None
        for number, line in enumerate(self.path.read_text().splitlines(), 1):
            if match := IMPORTS.match(line):
                for item in match[3].split(","):
                    name, _, other = item.strip().partition(" as ")
                    self.imports.append((match[1], match[2], name, other or name))
                continue
            if match := MODULES.match(line):
                self.modules.append((match[1], match[2]))
                continue
            if line.lstrip().startswith(("use ", "pub use ", "--")):
                continue
            indent = len(line) - len(line.lstrip())
            if shape is not None and line.strip() and indent <= shape:
                shape = None
            if match := SHAPES.match(line):
                lemma, shape = match[2], len(match[1])
                self.define(lemma, number, line)
            elif shape is None and (match := DEFINES.match(line)) and not line.lstrip().startswith(("let ", "|", "→", "module ")):
                lemma = match[3]
                self.define(lemma, number, line)
            elif line.lstrip().startswith("module "):
                self.loose |= words(line)
            elif lemma is None:
                self.loose |= words(line)
            else:
                self.lemmas[lemma][1].update(words(line) - {lemma})


def files_of_proofs():
    for crate in sorted((TOP / "crates").iterdir()):
        for path in sorted((crate / "proofs").rglob("*.antt")) if (crate / "proofs").is_dir() else []:
            if path.name != "Lib.antt" and "out" not in path.parts:
                yield File(crate.name, path)


def named_elsewhere():
    """What sources and specs name."""
    found = set()
    for folder, kind in (("src", "*.rt"), ("specs", "*.antt")):
        for path in (TOP / "crates").glob(f"*/{folder}"):
            for file in path.rglob(kind):
                for line in file.read_text().splitlines():
                    found |= words(line.replace("::", " "))
    return found


def unused(files):
    by_module = {(file.crate, file.module): file for file in files}
    used, work = set(), []

    def name(file, lemma):
        if (file, lemma) not in used:
            used.add((file, lemma))
            work.append((file, file.lemmas[lemma][1]))

    def cite(file, found, everything):
        for lemma in file.lemmas:
            if is_named(lemma, found):
                name(file, lemma)
        said = set(file.loose).union(*(text for _, text in file.lemmas.values()))
        for crate, module, lemma, known_as in file.imports:
            other = by_module.get((crate, module))
            silent = everything and not is_named(known_as, said)
            if other and lemma in other.lemmas and (silent or is_named(known_as, found)):
                name(other, lemma)
        for crate, module in file.modules:
            other = by_module.get((crate, module))
            for lemma in other.lemmas if other else ():
                if is_named(lemma, found):
                    name(other, lemma)

    outside = named_elsewhere()
    for file in files:
        if file.is_answer:
            for lemma in file.lemmas:
                name(file, lemma)
            cite(file, file.loose, True)
        else:
            for lemma in file.lemmas:
                if lemma in outside and any(part in outside for part in file.module.split(".")):
                    name(file, lemma)
    begun = set()
    while work:
        file, found = work.pop()
        cite(file, found | file.loose, file not in begun)
        begun.add(file)
    proving = {file.crate for file in files if file.is_answer}
    return [(file, lemma) for file in files if file.crate in proving for lemma in file.lemmas if (file, lemma) not in used]


def main():
    crates = sys.argv[1:]
    for file, lemma in unused(list(files_of_proofs())):
        if not crates or file.crate in crates:
            print(f"{file.path.relative_to(TOP)}:{file.lemmas[lemma][0]}: {lemma}")


main()
