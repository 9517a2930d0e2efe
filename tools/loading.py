"""A script of the repository that has no `.py`, as a module."""

import importlib.machinery
import importlib.util
import pathlib

ROOT = pathlib.Path(__file__).resolve().parent.parent


def loaded(script):
    """The module of a script, which is named by its path from the repository's root."""
    loader = importlib.machinery.SourceFileLoader(pathlib.Path(script).name, str(ROOT / script))
    module = importlib.util.module_from_spec(importlib.util.spec_from_loader(loader.name, loader))
    loader.exec_module(module)
    return module
