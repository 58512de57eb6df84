# SPDX-License-Identifier: MIT OR Apache-2.0
"""Which lemmas of the proofs use which: a lemma is a file of proofs/ and a name."""
import functools
import re

from lib.common import TOP

NAME = re.compile(r"[^\W\d][\w'-]*")
USE = re.compile(r"^(?:pub )?use Rattle\.(\w+)\.proofs\.([\w.]+?)(?:\.\{([^}]*)\}| as (\w+))$", re.MULTILINE)
GIVEN_OUT = re.compile(r"^pub use Rattle\.(\w+)\.proofs\.([\w.]+)$", re.MULTILINE)
HEAD = re.compile(r"^( ?(?: )?)(?:abbrev |unfoldable )?(?:pub )?([^\W\d][\w'-]*) (?:: |.*= )")


def crate_names():
    return {re.match(r"\w*", line).group() for line in (TOP / "crates.txt").read_text().splitlines()} - {""}


def proof_path(crate, module):
    return TOP / "crates" / crate / "proofs" / (module.replace(".", "/") + ".antt")


class ProofFile:
    """What a file imports, and the names that each of its lemmas mentions."""

    def __init__(self, path):
        text = path.read_text()
        self.imports, self.modules, self.mentions = {}, {}, {}
        for crate, module, names, alias in USE.findall(text):
            if crate in crate_names():
                for part in filter(None, (name.strip() for name in names.split(","))):
                    name, _, other = part.partition(" as ")
                    self.imports[other or name] = (crate, module, name)
                if alias:
                    self.modules[alias] = (crate, module)
        owner = None
        for line in text.splitlines():
            if line.startswith(("use ", "pub use ", "--")):
                continue
            # within `module _ (..) where` lemmas are indented by two
            found = HEAD.match(line)
            if found and len(found.group(1)) in (0, 2) and found.group(2) not in ("module", "where", "data", "record", "syntax"):
                if len(found.group(1)) == 0 or owner is None or self.in_module:
                    owner = found.group(2)
                    self.mentions.setdefault(owner, set())
            if line and not line.startswith(" "):
                self.in_module = line.startswith("module ")
            if owner:
                self.mentions[owner].update(NAME.findall(line))


@functools.cache
def proof_file(path):
    return ProofFile(path)


@functools.cache
def given_out(crate):
    """The files of crates below that the proofs of a crate give out whole, by their names there."""
    return {module.rpartition(".")[2]: (other, module) for other, module in GIVEN_OUT.findall(proof_path(crate, "Lib").read_text())}


@functools.cache
def lemma_of(crate, module, name):
    """The crate, module and name of the lemma that a file gives out under this name, itself or of another file."""
    path = proof_path(crate, module)
    if not path.is_file():
        return lemma_of(*given_out(crate)[module], name) if module in given_out(crate) else None
    file = proof_file(path)
    if name in file.mentions:
        return crate, module, name
    return lemma_of(*file.imports[name]) if name in file.imports else None


@functools.cache
def used_lemmas(crate, module, name):
    """The lemmas that the body of this one mentions."""
    file = proof_file(proof_path(crate, module))
    found = {}
    for word in sorted(file.mentions.get(name, ())):
        if word != name and word in file.mentions:
            found[crate, module, word] = None
        elif word in file.imports and (lemma := lemma_of(*file.imports[word])):
            found[lemma] = None
    return tuple(found)
