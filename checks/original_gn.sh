#!/usr/bin/env bash
# Compares the built program with the original GN, where that is installed, over random files that keep clear of the
# known differences.
set -u
cd "$(dirname "$0")/.."

gn=crates/gn/out/gn
original=$(command -v gn)
if ! [[ $("${original:-false}" --version 2>/dev/null) =~ ^[0-9]+ ]] || ! command -v python3 >/dev/null 2>&1; then
  echo "original_gn: skipped, since the original gn or python3 is missing"
  exit 0
fi
if [ ! -x "$gn" ]; then
  echo "original_gn: the program isn't built" >&2
  exit 1
fi
exec python3 checks/random_files.py "$original" "$gn" 300
