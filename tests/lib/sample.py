#!/usr/bin/env python3
# SPDX-License-Identifier: MIT OR Apache-2.0
"""Sentences of the documents and of the crates' doc comments, drawn by a seed, for readers who mark those that they had to read
twice. Usage: tests/lib/sample.py SEED [FROM_DOCUMENTS [FROM_COMMENTS]]"""
import random
import sys
from pathlib import Path

sys.path.insert(0, str(Path(__file__).parent.parent))
from lib.documents import comment_sentences, documents, sentences  # noqa: E402

FEWEST = 5  # words; what is shorter is a name or a cell


def of_documents():
    for document in documents():
        if document.name != "LAWS.md":
            yield from ((f"{document}:{line}", sentence) for line, sentence in sentences(document))


def of_comments():
    yield from ((f"{path}:{line}", sentence) for path, line, sentence in comment_sentences())


def main(seed, from_documents=110, from_comments=90):
    draw = random.Random(seed)
    for found, count in ((of_documents(), from_documents), (of_comments(), from_comments)):
        long_ones = [(place, sentence) for place, sentence in found if len(sentence.split()) >= FEWEST]
        for place, sentence in sorted(draw.sample(long_ones, int(count))):
            print(f"{place}: {sentence}")


if __name__ == "__main__":
    main(*sys.argv[1:])
