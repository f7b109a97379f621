#!/usr/bin/env python3
"""Calls the package as a program: python3 tools/model COMMAND .."""
import pathlib
import sys

sys.dont_write_bytecode = True
sys.path[0] = str(pathlib.Path(__file__).resolve().parent.parent)
from model import commands

if __name__ == "__main__":
    sys.exit(commands.main(sys.argv[1:]))
