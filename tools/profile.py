#!/usr/bin/env python3
"""profile.py: which functions of a crate its proof spends its time on. Run it in the crate's folder, crates/NAME.

    profile.py [--test] [--only PATH] [--top N]

It proves the crate from nothing with one job, over libraries that are built first where they aren't, and keeps nothing. Seconds are processor
seconds, so other work on the machine does little harm. A function has the time from the end of the one before it to its own end: the first also
has what comes before it, unless the check is a long one, which tells where that ends; and members of a cycle of calls end together, so one of
them may bear the time of all. Stages are by the clock: `session` is the proof, what comes before reads
the sources and the libraries and writes the modules that are then checked.
"""
import os
import re
import resource
import subprocess
import sys
import tempfile

TICK = os.sysconf("SC_CLK_TCK")
CHECKED = re.compile(r"checked (\S+), (\d+) of (\d+)$")


def rt_library():
    """Returns the library of the command `rt`, which knows the words of a check. It lies beside `rt` in the toolchain."""
    page = subprocess.run(["rt", "doc"], stdout=subprocess.PIPE, text=True, check=True).stdout.strip()
    sys.dont_write_bytecode = True
    sys.path.insert(0, os.path.join(os.path.dirname(page), "bin"))
    import rtlib

    return rtlib


def processor_seconds(pid):
    """Returns what a process and those below it, ended or not, have used."""
    try:
        with open(f"/proc/{pid}/stat") as file:
            ticks = sum(map(int, file.read().rpartition(")")[2].split()[11:15]))
        with open(f"/proc/{pid}/task/{pid}/children") as file:
            below = file.read().split()
    except OSError:
        return 0.0
    return ticks / TICK + sum(map(processor_seconds, below))


def profile(words, folder):
    """Runs a check, and returns its status, the seconds of each function, the whole, and what else it said."""
    functions, said, last = [], [], 0.0
    before = resource.getrusage(resource.RUSAGE_CHILDREN)
    ran = subprocess.Popen(words, cwd=folder, stdin=subprocess.DEVNULL, stdout=subprocess.PIPE, stderr=subprocess.STDOUT, text=True, errors="replace")
    for line in ran.stdout:
        found = CHECKED.match(line)
        now = max(processor_seconds(ran.pid), last)
        if found:
            functions.append((now - last, found[1] if functions else f"{found[1]}, the first, with all that comes before it"))
        elif line.startswith("so far: 0 "):
            functions.append((now - last, "(before the first function)"))
        else:
            said.append(line)
            continue
        last = now
    status = ran.wait()
    after = resource.getrusage(resource.RUSAGE_CHILDREN)
    whole = after.ru_utime + after.ru_stime - before.ru_utime - before.ru_stime
    functions.append((max(whole - last, 0.0), "(behind the last function)"))
    return status, functions, whole, said


def main(words):
    flags, top, tests = [], 25, False
    while words:
        it = words.pop(0)
        if it == "--test":
            tests = True
        elif it == "--only" and words:
            flags += ["--only", words.pop(0)]
        elif it == "--top" and words and words[0].isdigit():
            top = int(words.pop(0))
        else:
            print(__doc__, end="")
            return 0 if it in ("-h", "--help") else 2
    if not os.path.isdir("src"):
        print("profile: run it in a crate's folder, where src/ stands", file=sys.stderr)
        return 2
    rtlib = rt_library()
    crate = rtlib.Crate(os.getcwd(), rtlib.root_above(os.getcwd()), {})
    for dep in crate.deps:
        if subprocess.run(["rt", "lib"], cwd=dep.folder, stdin=subprocess.DEVNULL, stdout=subprocess.DEVNULL).returncode:
            print(f"profile: the library {dep.name} isn't proved", file=sys.stderr)
            return 1
    with tempfile.TemporaryDirectory(prefix="profile-") as room:
        more = ["--incremental", f"{room}/kept", "--progress", "--stage-times", f"{room}/stages"]
        os.mkdir(f"{room}/kept")
        check = [rtlib.RATTLE, "check", *crate.words(["--jobs", "1", *flags], tests=tests), *more]
        status, functions, whole, said = profile(check, os.getcwd())
        with open(f"{room}/stages") as file:
            stages = [line.split() for line in file if line.startswith("stage ")]
    if status:
        sys.stdout.writelines(it for it in said if not it.rstrip().endswith(": proved"))
        return status
    count = sum(not name.startswith("(") for _, name in functions)
    print(f"{crate.name}: {whole:.0f} processor seconds, {count} functions")
    print("stages by the clock: " + ", ".join(f"{it[1]} {float(it[2]):.0f}" for it in stages if float(it[2]) >= 0.5))
    for seconds, name in sorted(functions, reverse=True)[:top]:
        print(f"{seconds:7.1f}  {name}")
    return 0


if __name__ == "__main__":
    sys.exit(main(sys.argv[1:]))
