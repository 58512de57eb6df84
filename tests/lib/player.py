# SPDX-License-Identifier: MIT OR Apache-2.0
"""The player of calls, examples/play-call, as a module: `from lib.player import play`."""
import importlib.util
import sys
from importlib.machinery import SourceFileLoader

from lib.common import TOP


def load_play():
    loader = SourceFileLoader("play_call", str(TOP / "examples/play-call"))
    play = importlib.util.module_from_spec(importlib.util.spec_from_loader("play_call", loader))
    sys.dont_write_bytecode = True
    loader.exec_module(play)
    return play


play = load_play()
