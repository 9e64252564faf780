#!/usr/bin/env python3
"""peak.py COMMAND..: runs a command on this standard input, throws its output away, and writes the most memory that it held
and the seconds that it took. Ends with the command's status."""
import resource
import subprocess
import sys
import time

begun = time.monotonic()
ended = subprocess.run(sys.argv[1:], stdout=subprocess.DEVNULL, stderr=subprocess.DEVNULL).returncode
seconds = time.monotonic() - begun
print(f"{resource.getrusage(resource.RUSAGE_CHILDREN).ru_maxrss / 1000:.1f} {seconds:.2f}")
sys.exit(ended)
