# SPDX-License-Identifier: MIT OR Apache-2.0
"""docs/LAWS.md, drawn from the sources: each law in words, with the definitions that it names, the laws that its last lemma names,
and the must-fail edits of those definitions."""
import functools
import itertools
import re

from lib.common import TOP
from lib.laws import laws
from lib.proofs import crate_names, lemma_of, proof_file, used_lemmas

MOST_LEMMAS = 20_000
# that a claim holds of all settings and all that happened, also of what happens next, also of all numbers
QUANTIFIERS = ("OfRuns", "AtEvents", "OfNumbers")


@functools.cache
def all_laws():
    return tuple((law.crate, law.name, law) for law in laws())


def answers(law):
    """The module of the file that answers the law's goals, if it has one."""
    module = f"{law.path.stem}.{law.name}.Answers"
    return module if (TOP / "crates" / law.crate / "proofs" / (module.replace(".", "/") + ".antt")).is_file() else None


@functools.cache
def own_lemmas(crate, name):
    """The lemmas with which a law's answers begin: that they hold is the law."""
    law = next(law for one, other, law in all_laws() if (one, other) == (crate, name))
    module = answers(law)
    if not module:
        return ()
    path = TOP / "crates" / crate / "proofs" / (module.replace(".", "/") + ".antt")
    heads = re.findall(r"^returns[\w-]* [^=\n]*= (?:λ [^.\n]*\. )?([^\W\d][\w'-]*)", path.read_text(), re.MULTILINE)
    file = proof_file(path)
    found = (lemma_of(*file.imports[head]) for head in heads if head in file.imports)
    return tuple(lemma for lemma in found if lemma)


@functools.cache
def law_by_lemma():
    found = {}
    for crate, name, _ in all_laws():
        for lemma in own_lemmas(crate, name):
            found.setdefault(lemma, (crate, name))
    return found


def answering_lemmas(law):
    """The lemmas that the answers to a law's goals mention."""
    module = answers(law)
    if not module:
        return []
    path = TOP / "crates" / law.crate / "proofs" / (module.replace(".", "/") + ".antt")
    return [lemma for name in proof_file(path).mentions for lemma in used_lemmas(law.crate, module, name)]


def laws_met(law, first, goes_on):
    """The other laws that these lemmas use, as far as the first of them on each way, over lemmas for which `goes_on`."""
    to_do, met, found, own = list(first), set(first), {}, set(own_lemmas(law.crate, law.name))
    while to_do:
        lemma = to_do.pop()
        other = law_by_lemma().get(lemma)
        if other and lemma not in own:
            found[other] = None
            continue
        new = [one for one in used_lemmas(*lemma) if one not in met and (one in law_by_lemma() or goes_on(one))]
        met.update(new)
        to_do += new
        assert len(met) < MOST_LEMMAS, law.name
    order = [(crate, name) for crate, name, _ in all_laws()]
    return sorted(found, key=order.index)


def laws_below(law):
    """The other laws that the proof of a law uses."""
    return laws_met(law, answering_lemmas(law), lambda lemma: True)


def laws_named(law):
    """The other laws that a law's last lemma names, itself or by lemmas of its own file."""
    own = own_lemmas(law.crate, law.name)
    files = {lemma[:2] for lemma in own}
    return laws_met(law, own or answering_lemmas(law), lambda lemma: lemma[:2] in files)


@functools.cache
def depth(crate, name):
    """How many laws are below this one, one below the other, at most."""
    law = next(law for one, other, law in all_laws() if (one, other) == (crate, name))
    return max((1 + depth(*below) for below in laws_below(law)), default=0)


def in_order():
    """The laws crate by crate, the lowest crate first; in a crate file by file, and those that use no other first."""
    crates = list(dict.fromkeys(crate for crate, _, _ in all_laws()))
    depths = {}
    for crate, name, law in all_laws():
        depths[law.path] = max(depths.get(law.path, 0), depth(crate, name))
    return sorted((law for _, _, law in all_laws()), key=lambda law: (crates.index(law.crate), depths[law.path], law.path, law.line))


def room(law):
    """The room whose laws a file has, if it is one's."""
    name = "".join(part.title() for part in law.path.stem.removesuffix("_laws").split("_"))
    rooms = (TOP / "crates" / law.crate / "specs" / spelt for spelt in (name, f"{name}s", f"{name}Laws"))
    return next((room.name for room in rooms if room.is_dir()), None)


def definitions(law):
    """The definitions that the law's clauses name, and the files that have them, but those of the toolchain."""
    source = (TOP / law.path).read_text()
    places = {}
    for crate, module, names in re.findall(r"ghost use Rattle\.(\w+)\.specs\.([\w.]+)\.\{([^}]*)\};", source):
        if crate in crate_names():
            for part in filter(None, (name.strip() for name in names.split(","))):
                name, _, other = part.partition(" as ")
                places[other or name] = (crate, module, name)
    # without the types of variables
    statements = [re.sub(r"\([^():]* : [^()]*\)", "", statement) for _, statement in law.clauses]
    words = dict.fromkeys(word for statement in statements for word in re.findall(r"[^\W\d][\w'-]*", statement))
    return [places[word] for word in words if word in places and word not in QUANTIFIERS]


def spec_path(crate, module):
    """The file of a module of definitions; of a declared type, its source."""
    if module.startswith("declared."):
        for place in (module.split(".")[1], "lib"):
            if (path := TOP / "crates" / crate / "src" / f"{place}.rt").is_file():
                return path.relative_to(TOP)
    path = TOP / "crates" / crate / "specs" / (module.replace(".", "/") + ".antt")
    while not path.is_file():
        path = path.parent.with_suffix(".antt")
    return path.relative_to(TOP)


@functools.cache
def edits():
    """The must-fail edits by the files that they change."""
    found = {}
    for edit in sorted(TOP.glob("crates/*/must-fail/*.edit")):
        crate = edit.parent.parent
        for name in dict.fromkeys(re.findall(r"^file: (.*)$", edit.read_text(), re.MULTILINE)):
            found.setdefault((crate / name).relative_to(TOP), []).append(edit.relative_to(TOP))
    return found


def heading(crate, name):
    """A law's name, with its crate where another crate has a law of this name."""
    return name if sum(other == name for _, other, _ in all_laws()) == 1 else f"{name} of {crate}"


def anchor(crate, name):
    return heading(crate, name).replace(" ", "-")


def sentence_of(law):
    text = law.text.removeprefix("Law: ")
    return text[0].upper() + text[1:]


def link(text, path):
    return f"[{text}](../{path})"


def proofs_of(law):
    """Links to the lemmas that are the law, or else to the answers to its goals."""
    if found := dict.fromkeys(own_lemmas(law.crate, law.name)):
        return [link(f"`{name}`", f"crates/{crate}/proofs/{place.replace('.', '/')}.antt") for crate, place, name in found]
    module = answers(law)
    return [link("its answers", f"crates/{law.crate}/proofs/{module.replace('.', '/')}.antt")] if module else []


@functools.cache
def claims(crate, name):
    law = next(law for one, other, law in all_laws() if (one, other) == (crate, name))
    return [(name, spec_path(crate, module)) for crate, module, name in definitions(law) if name[0].isupper() and "declared" not in module]


def named_claims(law):
    """The claims that a law's clauses name, with the files that define them."""
    return claims(law.crate, law.name)


def entry(law):
    """The lines of a law."""
    yield from ("", f"### {heading(law.crate, law.name)}", "", sentence_of(law), "")
    named = named_claims(law)
    says = "; it claims " + ", ".join(f"[`{claim[0]}`](#{claim_anchor(claim)})" for claim in named) if named else ""
    yield f"- Law: {link(f'`{law.name}`', law.path)}{says}"
    yield f"- Proof: {', '.join(proofs_of(law)) or 'found by the prover alone'}"
    if named_laws := laws_named(law):
        yield "- It uses " + ", ".join(f"[`{name}`](#{anchor(crate, name)})" for crate, name in named_laws)
    if found := dict.fromkeys(edit for _, path in named for edit in edits().get(path, ())):
        yield "- Must-fail edits of these definitions: " + ", ".join(link(f"`{edit.stem}`", edit) for edit in found)


@functools.cache
def all_claims():
    """The claims that laws name, in their order, each with the file that defines it."""
    return tuple(dict.fromkeys(claim for law in in_order() for claim in named_claims(law)))


def claim_heading(claim):
    """A claim's name, with its crate and its module where another claim has that name."""
    name, path = claim
    alike = [other for other, _ in all_claims()].count(name) + sum(other == name.lower() for _, other, _ in all_laws())
    return name if alike == 1 else f"{name} of {path.parts[1]} {path.stem}"


def claim_anchor(claim):
    return claim_heading(claim).lower().replace(" ", "-")


def words_of(claim):
    """What is written over the definition of a claim, or else at the head of its file."""
    name, path = claim
    lines = (TOP / path).read_text().splitlines()
    place = next(place for place, line in enumerate(lines) if re.match(rf"(?:abbrev |unfoldable )?(?:pub )?(?:record |data )?{name}\b", line))
    words = []
    while lines[place - 1].startswith("-- ") and not lines[place - 1].startswith("-- --"):
        place -= 1
        words.insert(0, lines[place][3:])
    if not words:
        head = itertools.takewhile(lambda line: line.startswith("-- "), lines[1:])
        words = [line[3:] for line in head]
    text = " ".join(words).strip()
    return text[0].upper() + text[1:] + ("" if text.endswith((".", ":")) else ".")


def claim_lines():
    """The claims that laws name, each in words."""
    yield from ("", "<!-- drawn from the definitions -->", "## The claims that laws name", "", "Each as the source has it: over its definition, or else at the head of its file.")
    for claim in all_claims():
        yield from ("", f"### {claim_heading(claim)}", "", f"{words_of(claim)} {link(claim[1].stem, claim[1])}, `{claim[1].parts[1]}`.")


def other_edits():
    """The must-fail edits that no entry has, by crate."""
    shown = {path for law in in_order() for name, path in named_claims(law)}
    found = {}
    for path, those in sorted(edits().items()):
        if path not in shown:
            found.setdefault(path.parts[1], {}).update(dict.fromkeys(those))
    yield from ("", "## Other must-fail edits", "", "These are of definitions further down, and of code, which its contract has to refuse.", "")
    for crate, those in found.items():
        yield f"- `{crate}`: " + ", ".join(link(f"`{edit.stem}`", edit) for edit in those)


def drawn():
    """The whole text of the entries."""
    lines, place = [], None
    for law in in_order():
        if (law.crate, room(law)) != place:
            place = law.crate, room(law)
            lines += ["", f"## Laws of `{law.crate}`" + (f", room `{room(law)}`" if room(law) else "")]
        lines += entry(law)
    return "\n".join([*lines, *other_edits(), *claim_lines()]) + "\n"
