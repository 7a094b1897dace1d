#!/usr/bin/env python3
"""progress.py: runs a command of the Rattle toolchain, and says in a line each which crate is begun and which is proved.

    progress.py [--log FILE] [--ends TEXT] COMMAND..

Each line begins with the minutes and seconds since the start. What the command prints goes to the log whole; here it is cut down to what a
reader waits for. Of a crate that isn't proved all messages are printed. The status is the command's; with --ends it is 0 exactly where a line
of it begins with the text, as the last one of a program that `rt run` has proved, linked and started.
"""
import contextlib
import os
import re
import subprocess
import sys
import threading
import time

BEGUN = time.monotonic()
CRATES = os.path.join(os.path.dirname(os.path.dirname(os.path.realpath(__file__))), "crates")
LOCK = threading.Lock()
# What is printed of each function, library and module that is well, and of the quick pass over the sources.
ROUTINE = re.compile(
    r"(struct|enum|union|trait|impl|fn|const|static|type|macro) \S+: proved$|checked \S+, \d+ of \d+$|by-macro: |logic /|statements \w+: |crate \w+: modules "
    r"|only=|logic=proved |so far: |rt: the quick pass above |run=|$"
)
SO_FAR = re.compile(r"so far: (\d+ of \d+) functions checked$")
# The lines of rt ci that a reader waits for, and the headings that part the messages of its crates.
TOLD = re.compile(r"rt: |gate: |real_files: |escapes: |ninja_builds: |original_gn: |sample_tree: ")
COUNTS = re.compile(r"\d+ passed, \d+ failed")
HEADING = re.compile(r"== (\w+)(: its tests)?$")
ENDED = re.compile(r"rt: (\w+)(: its tests are)? (proved|NOT PROVED)$")


def say(text):
    with LOCK:
        seconds = int(time.monotonic() - BEGUN)
        print(f"{seconds // 60:4}:{seconds % 60:02}  {text}", flush=True)


def descendants(pid):
    """Returns the processes below this one."""
    found, left = [], [pid]
    while left:
        it = left.pop()
        # (each thread has the list of those that it started)
        with contextlib.suppress(OSError):
            for thread in os.listdir(f"/proc/{it}/task"):
                with open(f"/proc/{it}/task/{thread}/children") as file:
                    below = file.read().split()
                found += below
                left += below
    return found


def work_of(pid):
    """Returns which crate a process proves, and what of it, or None where it proves none. An edit that must fail is tried in a folder elsewhere."""
    try:
        with open(f"/proc/{pid}/cmdline", "rb") as file:
            words = file.read().decode(errors="replace").split("\0")
        is_here = os.path.dirname(os.readlink(f"/proc/{pid}/cwd")) == CRATES
    except OSError:
        return None
    if "--crate-name" not in words or not is_here or not {"check", "build"} & set(words) or {"--only", "--start", "--crate-checked"} & set(words):
        return None
    name = words[words.index("--crate-name") + 1]
    return f"{name}, its tests" if "--test" in words else name


class Watch(threading.Thread):
    """Says which crates are begun: each process that proves one names it."""

    def __init__(self, pid):
        super().__init__(daemon=True)
        self.pid, self.begun, self.ended = pid, {}, set()

    def run(self):
        while True:
            self.look()
            time.sleep(0.3)

    def look(self):
        for work in filter(None, map(work_of, descendants(self.pid))):
            with LOCK:
                is_new = work not in self.begun
                self.begun.setdefault(work, time.monotonic())
            if is_new:
                say(f"{work}: begun")

    def took(self, work):
        """Returns how long ago the work was begun, as it is printed."""
        at = self.begun.get(work)
        return "" if at is None else f" ({int(time.monotonic() - at)} s)"

    def current(self):
        """Returns the crate that was begun first of those that haven't ended: where they come one by one, the one whose messages come."""
        with LOCK:
            return next((it for it in self.begun if it not in self.ended), "the program")


def proved(watch, work, is_well, held):
    watch.ended.add(work)
    say(f"{work}: {'proved' if is_well else 'NOT PROVED'}{watch.took(work)}")
    if not is_well:
        with LOCK:
            sys.stdout.writelines(held)
            sys.stdout.flush()


def follow(lines, watch, log, end):
    """Reads what the command prints, and returns what is left of it, and whether a line begins with the end.

    Under `rt ci` a crate's messages stand between its heading and the line that says how it ended; else the crates come one by one.
    """
    held, heading, spoke, has_ended = [], None, 0.0, False
    for line in lines:
        log.write(line)
        log.flush()
        text = line.rstrip("\n")
        has_ended = has_ended or end is not None and text.startswith(end)
        found, ended, so_far = HEADING.match(text), ENDED.match(text), SO_FAR.match(text)
        if found:
            heading, held = found[1], []
        elif ended:
            proved(watch, ended[1] + (", its tests" if ended[2] else ""), ended[3] == "proved", held)
            heading, held = None, []
        elif heading is None and text.startswith(("logic=proved ", "logic=not-proved")):
            proved(watch, watch.current(), text.startswith("logic=proved "), held)
            held = []
        elif heading is None and so_far and time.monotonic() - spoke > 20:
            spoke = time.monotonic()
            say(f"{watch.current()}: {so_far[1]} functions")
        elif heading is None and COUNTS.match(text):
            with LOCK:
                print(text, flush=True)
        elif heading is None and TOLD.match(text) and not ROUTINE.match(text):
            say(text[4:] if text.startswith("rt: ") else text)
        elif not ROUTINE.match(text):
            held.append(line)
    return held, has_ended


def main(words):
    given = {"--log": os.devnull, "--ends": None}
    while words[:1] and words[0] in given and len(words) > 1:
        given[words[0]], words = words[1], words[2:]
    if not words:
        print(__doc__, end="", file=sys.stderr)
        return 2
    with open(given["--log"], "w") as file:
        ran = subprocess.Popen(words, stdin=subprocess.DEVNULL, stdout=subprocess.PIPE, stderr=subprocess.STDOUT, text=True, errors="replace")
        watch = Watch(ran.pid)
        watch.start()
        held, has_ended = follow(ran.stdout, watch, file, given["--ends"])
        status = ran.wait()
    status = status if status >= 0 else 128 - status
    if given["--ends"] is not None:
        status = 0 if has_ended else status or 1
    if status:
        sys.stdout.writelines(held)
    return status


if __name__ == "__main__":
    sys.exit(main(sys.argv[1:]))
