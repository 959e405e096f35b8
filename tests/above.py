"""The folder above this one: the repository, which has the package `model`.

A script of this folder imports this module before anything of `model`.
"""
import sys
from pathlib import Path

ROOT = Path(__file__).resolve().parent.parent

sys.path.insert(0, str(ROOT))
