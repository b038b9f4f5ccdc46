"""Has the modules of tools/ found, and makes modules of scripts, which have no ending."""

import importlib.machinery
import importlib.util
import pathlib
import sys

TOP = pathlib.Path(__file__).resolve().parent.parent
sys.path.insert(1, str(TOP / 'tools'))


def script(place):
    """The script at a place of the tree, of which nothing but the definitions is run."""
    loader = importlib.machinery.SourceFileLoader(place.replace('/', '_').replace('-', '_'), str(TOP / place))
    module = importlib.util.module_from_spec(importlib.util.spec_from_loader(loader.name, loader))
    loader.exec_module(module)
    return module
