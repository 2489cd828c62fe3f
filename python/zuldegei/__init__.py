"""The scoreboard tlscore and the model tlbridge in this process (scoreboard.py, bridge.py), a client that talks to tlbridge (client.py),
and tools beside them: they read dumps and memory images, and explain, draw and count what was found."""

__version__ = "0.1.0"

from .bridge import Bridge, BridgeError
from .client import ABeat
from .observation import Judged, Wrong
from .scoreboard import Channel, Error, Found, Response, Scoreboard, ScoreboardError, known

__all__ = ["ABeat", "Bridge", "BridgeError", "Channel", "Error", "Found", "Judged", "Response", "Scoreboard", "ScoreboardError", "Wrong", "known"]
