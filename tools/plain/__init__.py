"""Plain readings: the formats and rules of the programs implemented a second time, apart from the proved sources, for comparison."""

import sys
from importlib.machinery import SourceFileLoader
from pathlib import Path

sys.dont_write_bytecode = True
TOOLS = Path(__file__).resolve().parent.parent


def loaded(name):
    """Returns a program of tools/ as a module."""
    return SourceFileLoader(name.replace("-", "_"), str(TOOLS / name)).load_module()
