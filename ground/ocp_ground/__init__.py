"""Journals of the engine on ground, by the engine's own library: Engine, Journal, Replay. `ground/build` makes the library."""
from .engine import Engine, LibraryFault, Refused
from .journal import Entry, Finding, Journal
from .replay import Differs, Replay

__all__ = ["Differs", "Engine", "Entry", "Finding", "Journal", "LibraryFault", "Refused", "Replay"]
