"""Prints the transcript that a script has to have, where the program is not built: what ground compares reports with.

usage: python3 ground/profile_model [PROFILE [APID [POOL-WORDS [JOURNAL-ENTRIES]]]] < SCRIPT"""
import sys
from pathlib import Path

sys.path.insert(0, str(Path(__file__).resolve().parent.parent))
from profile_model.console import run  # noqa: E402

if __name__ == "__main__":
    if not all(word.isdecimal() for word in sys.argv[1:]) or len(sys.argv) > 5:
        sys.exit(__doc__)
    sys.stdout.write(run(sys.stdin.buffer.read(), *map(int, sys.argv[1:])))
