"""The checks of this repository, in folders by what they look at.

`./check NAME` runs the check of that name. `python3 -m checks.FOLDER.NAME` at the top runs it too, and hands on the words behind it.
"""
import os
import sys

TOP = os.path.dirname(os.path.dirname(os.path.abspath(__file__)))
# Where the modules of tools/ are found.
sys.path[:0] = [f"{TOP}/tools"]
