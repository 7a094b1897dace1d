"""Runs a program and keeps what it prints.

Usage: run.py PROGRAM FILE
"""

import subprocess
import sys

program, file = sys.argv[1:]
with open(file, "wb") as out:
    subprocess.run([program], stdout=out, check=True)
