"""The client of the package in python/ by the name that it has here: with this folder on PYTHONPATH, `from client import Interactive`."""

import sys
from pathlib import Path

sys.path.append(str(Path(__file__).resolve().parents[2] / "python"))
from zuldegei.client import *  # noqa: E402, F401, F403
