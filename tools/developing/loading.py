"""Loads a tool, whose name has no ending, as a module."""
import importlib.machinery
import importlib.util
import os

TOOLS = os.path.dirname(os.path.dirname(os.path.realpath(__file__)))


def loaded(name):
    loader = importlib.machinery.SourceFileLoader(name, os.path.join(TOOLS, name))
    found = importlib.util.module_from_spec(importlib.util.spec_from_loader(name, loader))
    loader.exec_module(found)
    return found
