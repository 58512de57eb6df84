# SPDX-License-Identifier: MIT OR Apache-2.0
"""The documents of the repository, for tests/documents-links and tests/documents-words: their lines, sentences, links and names; and the
sentences of the sources' comments."""
import fnmatch
import functools
import os
import re
from pathlib import Path

from lib.common import TOP

# paths of the system, of what is built and of what is installed; names of the system, and a key that no settings have
PATHS_ELSEWHERE = ("/", "out/", "crates/bsc_main/out/", "PREFIX/", "share/", "lib/systemd/")
WORDS_ELSEWHERE = ("LimitNOFILE", "TasksMax", "t3102_ms")
# what ends a sentence, a cell of a table, an item of a list, or a heading
END = re.compile(r"(?<=[.!?])[)*_`]*\s+|\s*\|\s*|\n\s*(?:[-*]|\d+\.)\s+|\n#+ |\n\s*\n")


def documents():
    """The paths of all documents, from the repository's folder."""
    found = [path for pattern in ("*.md", "*/*.md", "*/*/*.md") for path in TOP.glob(pattern)]
    return sorted(path.relative_to(TOP) for path in found if "out" not in path.parts)


def prose(document):
    """The text of a document; blocks of code are empty lines, so that lines keep their numbers."""
    lines, is_code = [], False
    for line in (TOP / document).read_text().splitlines():
        is_fence = line.lstrip().startswith("```")
        is_code = is_code != is_fence
        lines.append("" if is_code or is_fence or line.startswith("    ") else line)
    return "\n".join(lines) + "\n"


def sentences(document):
    """Each sentence with the number of the line in which it begins."""
    text, place = prose(document), 0
    for end in [*END.finditer(text), None]:
        sentence = text[place:end.start() if end else len(text)]
        if sentence.strip():
            yield text.count("\n", 0, place + len(sentence) - len(sentence.lstrip())) + 1, " ".join(sentence.split()).removeprefix("- ")
        place = end.end() if end else place


def comment_sentences():
    """The path of a source with the line in which a comment begins, and each sentence of the comment: `///`, `//!` and `//` of code,
    and `--` of definitions. Pictures between fences are left out."""
    for path in source_paths():
        if path.parts[0] != "crates" or not (path.suffix == ".rt" or "specs" in path.parts):
            continue
        sign = r"\s*//[/!]? ?(.*)" if path.suffix == ".rt" else r"\s*-- (?!-- )(.*)"
        parts, first, is_picture = [], 0, False
        for number, line in enumerate([*(TOP / path).read_text().splitlines(), ""], 1):
            if found := re.match(sign, line):
                is_fence = found[1].startswith("```")
                is_picture = is_picture != is_fence
                parts, first = [*parts, "" if is_picture or is_fence else found[1]], first or number
            else:
                said = re.split(r"(?<=[.!?])\s+", " ".join(parts))
                yield from ((path, first, sentence) for sentence in said if sentence and "SPDX" not in sentence)
                parts, first = [], 0


def links(document):
    """What each link of a document leads to, with the number of its line."""
    for number, line in enumerate(prose(document).splitlines(), 1):
        for target in re.findall(r"\]\(([^)\s]+)\)", line):
            yield number, target


@functools.cache
def anchors(document):
    """The anchors of a document's headings, as the host of a repository makes them."""
    headings = (line.lstrip("# ").lower() for line in prose(document).splitlines() if line.startswith("#"))
    return [re.sub(r"[^\w\- ]", "", heading).replace(" ", "-") for heading in headings]


def names(document):
    """Each piece of code within a line of a document, with the number of the line."""
    for number, line in enumerate(prose(document).splitlines(), 1):
        for code in re.findall(r"`([^`]+)`", line):
            yield number, code


@functools.cache
def source_paths():
    """All files of the repository, from its folder, but what is built."""
    found = []
    for folder, folders, files in os.walk(TOP):
        folders[:] = sorted(set(folders) - {".git", "out", "__pycache__", ".mypy_cache"})
        found += [(Path(folder) / name).relative_to(TOP) for name in sorted(files)]
    return found


@functools.cache
def source_names():
    """The files and folders of the repository, also by the end of their path, as `src/read.rt`; modules also without `.antt`."""
    found = set()
    for path in source_paths():
        for whole in (path, path.with_suffix("") if path.suffix == ".antt" else path, *path.parents):
            found.update("/".join(whole.parts[place:]) for place in range(len(whole.parts)))
    return found


@functools.cache
def source_words():
    """The words of all files that aren't documents, and the names of all files."""
    texts = ((TOP / path).read_text(errors="replace") for path in source_paths() if path.suffix != ".md")
    return {word for text in texts for word in re.findall(r"\w+", text)} | {path.stem for path in source_paths()}


def is_path(name):
    """Whether this names a file or a folder of the repository, perhaps by a pattern."""
    return re.fullmatch(r"[\w./*@-]+\.(?:antt|rt|py|c|edit|md|sh|script|report|cases|toml|txt)|[\w.@-]+(?:/[\w.*@-]*)+", name)


def missing_path(name):
    path = name.removeprefix("./").rstrip("/")
    is_there = fnmatch.filter(source_names(), path) if "*" in path else path in source_names()
    return not is_there and not name.startswith(PATHS_ELSEWHERE)


def missing_words(name):
    """The words of this code that look like a name and are in no source."""
    words = re.findall(r"\w*(?:[A-Za-z]_[A-Za-z]|[a-z][A-Z])\w*", name)
    return [word for word in words if word not in source_words() and word not in WORDS_ELSEWHERE]
