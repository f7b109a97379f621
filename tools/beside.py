"""Loads a tool of this folder as a module, by its name: the tools have none that ends in `.py`."""
import importlib.machinery
import importlib.util
import pathlib
import sys

HERE = pathlib.Path(__file__).resolve().parent


def load(name):
    module_name = name.replace("-", "_")
    if module_name not in sys.modules:
        loader = importlib.machinery.SourceFileLoader(module_name, str(HERE / name))
        module = importlib.util.module_from_spec(importlib.util.spec_from_loader(module_name, loader))
        sys.modules[module_name] = module
        loader.exec_module(module)
    return sys.modules[module_name]
