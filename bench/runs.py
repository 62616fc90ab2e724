"""What both benchmarks do: read their words, and ask for a run's greatest memory."""

import pathlib
import subprocess
import sys


def program_and_sizes(usage, sizes):
    """The program that the words name, and the sizes behind it, or these."""
    if len(sys.argv) < 2:
        sys.exit(f"usage: {usage}")
    return pathlib.Path(sys.argv[1]).resolve(), [int(word) for word in sys.argv[2:]] or sizes


def greatest_memory(command, folder, **streams):
    """The greatest memory of one run, in KiB."""
    told = folder / "memory"
    subprocess.run(["/usr/bin/time", "-f", "%M", "-o", told] + command, **streams)
    return int(told.read_text().split()[-1])
