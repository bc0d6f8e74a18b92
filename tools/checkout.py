"""Lets a script import the packages of python/ and the modules of tools/lib, as this checkout has them.

A script of another folder has the folder tools/ on its path before it imports this.
"""
import sys
from pathlib import Path

# The checkout's folder.
TOP = Path(__file__).resolve().parent.parent
# Behind the script's own folder, and before what is installed: a trial tries this checkout.
sys.path[1:1] = [str(TOP / "python"), str(TOP / "tools/lib")]
