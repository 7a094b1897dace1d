#!/usr/bin/env bash
# What a real shell and a real Ninja read of the texts that the tests of gn_ninja_text expect. The gate has run the calls,
# which give these texts; here the programs that they are meant for read them back.
set -u
cd "$(dirname "$0")/.."

if ! command -v python3 >/dev/null 2>&1; then
  echo "escapes: skipped, since 'python3' is missing"
  exit 0
fi

python3 - crates/gn_leaf_tests/src/ninja_text.rt <<'PYTHON'
import ast, os, re, shutil, subprocess, sys, tempfile

with open(sys.argv[1], encoding="utf-8") as handle:
    tests = handle.read()
row = re.compile(r'^    ("(?:[^"\\]|\\.)*"), ("(?:[^"\\]|\\.)*");$', re.M)


def rows(name):
    """The rows of the table with this name: what goes in, and what is expected."""
    start = tests.index("const " + name + ":")
    table = tests[start : tests.index("\n};\n", start)]
    found = [tuple(ast.literal_eval(it).encode() for it in pair) for pair in row.findall(table)]
    if not found or len(found) != table.count("\n"):
        sys.exit("escapes: not every row of %s is read" % name)
    return found


passed = failed = 0


def judge(what, text, got, want):
    global passed, failed
    if got == want:
        passed += 1
    else:
        failed += 1
        print("escapes: %s reads %r as %r, want %r" % (what, text, got, want), file=sys.stderr)


if shutil.which("sh"):
    for word, text in rows("WORDS"):
        done = subprocess.run(["sh", "-c", b"printf %s " + text], stdout=subprocess.PIPE)
        judge("sh", text, done.stdout, word)
else:
    print("escapes: skipped the shell, since 'sh' is missing")

if shutil.which("ninja"):
    for path, text in rows("PATHS"):
        # an empty path isn't one, and Ninja has no escape for a `|`
        if not path or b"|" in path:
            continue
        with tempfile.TemporaryDirectory() as folder:
            with open(os.path.join(folder, "build.ninja"), "wb") as handle:
                handle.write(b"build out: phony " + text + b"\n")
            done = subprocess.run(["ninja", "-t", "query", "out"], cwd=folder, stdout=subprocess.PIPE)
            judge("ninja", text, done.stdout.split(b"\n")[2].strip(), path)
    for value, text in rows("VALUES"):
        with tempfile.TemporaryDirectory() as folder:
            with open(os.path.join(folder, "build.ninja"), "wb") as handle:
                handle.write(b"rule run\n  command = ${value}\nbuild out: run\n  value = " + text + b"\n")
            done = subprocess.run(["ninja", "-t", "commands", "out"], cwd=folder, stdout=subprocess.PIPE)
            judge("ninja", text, done.stdout[:-1], value)
else:
    print("escapes: skipped Ninja, since 'ninja' is missing")

print("escapes: %d passed, %d failed" % (passed, failed))
sys.exit(1 if failed else 0)
PYTHON
