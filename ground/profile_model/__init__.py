"""The profile (docs/PROFILE.md), the console (docs/MANUAL.md) and texts (docs/AUTHOR.md) once more, as plain as a table can be run:
packets, requests, procedures, instructions, lines, texts and listings. It is written from those pages, and shares nothing with the
program. Each module imports those above it in this list.
"""

MODULES = ["packets", "requests", "instructions", "loading", "machine", "engine", "words", "console", "texts"]
