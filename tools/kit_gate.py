"""The functions of the kit's own `rt`, for tools that say what it says."""
import importlib.machinery
import importlib.util
import os
import shutil
import sys


def load_gate():
    """The kit's `rt` as a module."""
    loader = importlib.machinery.SourceFileLoader("gate", os.path.realpath(shutil.which("rt")))
    made = importlib.util.module_from_spec(importlib.util.spec_from_loader("gate", loader))
    sys.modules["gate"] = made
    loader.exec_module(made)
    return made
