"""Runs a command three times; says the least time by the clock and the least time of all processors, in milliseconds, and the most memory in MiB.

Usage: measure.py [--fresh FOLDER] --text FILE PROGRAM WORD..

With --fresh the folder is removed before each run. What the last run has said goes to the file. The status is that of the first run that fails.
"""

import argparse
import os
import resource
import shutil
import subprocess
import sys
import time

RUNS = 3


def main():
    parser = argparse.ArgumentParser()
    parser.add_argument("--fresh")
    parser.add_argument("--text", required=True)
    parser.add_argument("command", nargs=argparse.REMAINDER)
    words = parser.parse_args()
    clock = []
    processors = []
    for _ in range(RUNS):
        if words.fresh and os.path.exists(words.fresh):
            shutil.rmtree(words.fresh)
        with open(words.text, "wb") as text:
            start, spent = time.perf_counter(), of_processors()
            status = subprocess.run(words.command, stdin=subprocess.DEVNULL, stdout=text, stderr=subprocess.STDOUT).returncode
            clock.append(time.perf_counter() - start)
            processors.append(of_processors() - spent)
        if status:
            return status
    print(round(min(clock) * 1000), round(min(processors) * 1000), resource.getrusage(resource.RUSAGE_CHILDREN).ru_maxrss // 1024)
    return 0


def of_processors():
    """The seconds that the commands of before have taken of processors, of their own and of the system's for them."""
    used = resource.getrusage(resource.RUSAGE_CHILDREN)
    return used.ru_utime + used.ru_stime


sys.exit(main())
