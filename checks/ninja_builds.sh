#!/usr/bin/env bash
# Makes the Ninja files of the example and of the trees in checks/trees, builds them with the real Ninja and GCC, and runs what is built.
# What no contract can say: that Ninja and the tools read the files as they are meant, and how the program writes files.
#
# Usage: ninja_builds.sh [GN]. GN is another program in place of the one that the gate has built. It may be the original `gn`, which
# counts the build configuration among its files, and with which no failing writes are tried.
set -u
cd "$(dirname "$0")/.."
top=$PWD
passed=0
failed=0

for each in ninja gcc g++ python3; do
  if ! command -v "$each" >/dev/null 2>&1; then
    echo "ninja_builds: skipped, since '$each' is missing"
    exit 0
  fi
done
gn=$(command -v "${1:-$top/crates/gn/out/gn}")
if [ ! -x "$gn" ]; then
  echo "ninja_builds: the program isn't built" >&2
  exit 1
fi
gn=$(realpath "$gn")
original=0
[[ $("$gn" --version 2>/dev/null) =~ ^[0-9]+ ]] && original=1

folder=$(mktemp -d)
trap 'chmod -R u+rwx "$folder"; rm -rf "$folder"' EXIT

# expect NAME GOT WANTED: compares two texts
expect() {
  if [ "$2" = "$3" ]; then
    passed=$((passed + 1))
  else
    failed=$((failed + 1))
    printf 'ninja_builds: %s: want %q, got %q\n' "$1" "$3" "$2" >&2
  fi
}

# succeeds NAME WORD..: runs a command, whose output is shown only where it fails
succeeds() {
  local name=$1 status
  shift
  "$@" </dev/null >"$folder/said" 2>&1
  status=$?
  if [ "$status" -eq 0 ]; then
    passed=$((passed + 1))
  else
    failed=$((failed + 1))
    printf 'ninja_builds: %s: %s ended with %d:\n' "$name" "$*" "$status" >&2
    tail -n 40 "$folder/said" >&2
  fi
}

# tree NAME [SOURCE]: the example's configuration and toolchain, and over it a tree of the checks; it is left in $tree
tree() {
  tree=$folder/$1
  mkdir -p "$tree"
  cp -r examples/hello/.gn examples/hello/build "$tree"
  cp -r "${2:-checks/trees/$1}/." "$tree"
  rm -rf "$tree/out"
}

# generates NAME TARGETS FILES [SWITCH..]: makes the Ninja files of $tree, which are of so many targets from so many build files
generates() {
  local name=$1 targets=$2 files=$3
  shift 3
  expect "$name: what gn says" "$(cd "$tree" && "$gn" gen out "$@" </dev/null 2>&1 | sed 's/ in [0-9]*ms$//'; exit "${PIPESTATUS[0]}")" \
    "Done. Made $targets targets from $((files + original)) files"
}

# builds NAME TARGETS FILES: makes the Ninja files of $tree and builds all; then nothing is left to do, nor is it where the files are made again
builds() {
  local name=$1
  generates "$@"
  succeeds "$name: what is to be done" ninja -C "$tree/out" -n
  succeeds "$name: the graph" ninja -C "$tree/out" -t graph
  succeeds "$name: the build" ninja -C "$tree/out"
  expect "$name: a second build" "$(left)" "ninja: no work to do."
  generates "$@"
  expect "$name: the same files again" "$(left)" "ninja: no work to do."
}

# The last line of what Ninja says in $tree, without building.
left() {
  ninja -C "$tree/out" -n 2>&1 | tail -n 1
}

tree hello examples/hello
builds hello 4 5
expect "hello: the program" "$("$tree/out/hello")" "Hello, world, of 5 letters."
expect "hello: its shared library" "$([ -f "$tree/out/libgreeting.so" ] && [ -f "$tree/out/obj/counting/libcounting.a" ] && echo there)" there
succeeds "hello: by its name" ninja -C "$tree/out" counting
succeeds "hello: by its label" ninja -C "$tree/out" greeting:greeting
echo '#define FURTHER' >>"$tree/counting/include/counting.h"
expect "hello: after a header has changed" "$(ninja -C "$tree/out" -n | grep -c ' CC \| CXX ')" 2
generates hello 4 5 '--args=is_debug = false'
succeeds "hello: optimized" ninja -C "$tree/out"
expect "hello: the optimized program" "$("$tree/out/hello" gn)" "Hello, gn, of 2 letters."
expect "hello: the commands" "$(ninja -C "$tree/out" -t commands hello | grep -c -- ' -O2 ')" 3
generates hello 4 5
expect "hello: the kept arguments" "$(left)" "ninja: no work to do."

tree actions
builds actions 3 3
expect "actions: the program" "$("$tree/out/app")" "data, first, the second: of one of two"
# An action names only its own text; of the other one Ninja knows by the depfile.
echo from >"$tree/data/common.txt"
succeeds "actions: after a text of the depfiles has changed" ninja -C "$tree/out"
expect "actions: the program made again" "$("$tree/out/app")" "data, first, the second: from one from two"

tree toolchains
builds toolchains 6 4
expect "toolchains: the program" "$("$tree/out/app")" "debug, made by small"
succeeds "toolchains: the other toolchain's program" "$tree/out/small/maker"

tree names
for each in 'a b' 'c:d' '$e f$'; do
  echo "$each" >"$tree/$each.txt"
done
builds names 5 3
expect "names: the program" "$("$tree/out/the app")" 'a $b, a header'
expect "names: a copy" "$(cat "$tree/out/obj/the copy of \$e f\$.txt")" '$e f$'
expect "names: a file of an action" "$(cat "$tree/out/gen/from the copy of c:d.txt")" 'obj/the copy of c:d.txt'
expect "names: the words of an action" "$(cat "$tree/out/gen/the words: \$5.txt")" 'one word
$HOME
it'\''s
"quoted"
`date`
back\\slash
*
;&|<>()#~!'
succeeds "names: by its name" ninja -C "$tree/out" "all of it"

if [ "$original" -eq 1 ]; then
  echo "ninja_builds: $passed passed, $failed failed"
  [ "$failed" -eq 0 ]
  exit
fi

# From here on a write fails: that is status 4, nothing is said, and no file is written in part.

# cannot_write NAME WORD..: runs the program in $tree by the command that these words begin
cannot_write() {
  local name=$1 out status
  shift
  out=$(cd "$tree" && "$@" "$gn" gen out </dev/null 2>&1)
  status=$?
  expect "$name" "$status $out" "4 "
}

tree file examples/hello
echo kept >"$tree/out"
cannot_write "a file in the build directory's place" env
expect "a file in the build directory's place stays" "$(cat "$tree/out")" kept

tree folder examples/hello
mkdir -p "$tree/out/obj/hello.ninja/below"
cannot_write "a folder in a file's place" env
expect "a folder in a file's place stays" "$(cd "$tree/out/obj" && find . -name below -o -name .gn-new)" ./hello.ninja/below

# Permissions bind everyone but root, so this runs as nobody where that can be had.
if [ "$(id -u)" -eq 0 ] && command -v setpriv >/dev/null 2>&1; then
  tree closed examples/hello
  cp "$gn" "$folder/gn"
  chmod 755 "$folder" "$folder/gn"
  gn=$folder/gn cannot_write "a source root that may not be written" setpriv --reuid 65534 --regid 65534 --clear-groups
  expect "a source root that may not be written stays" "$([ -e "$tree/out" ] || echo absent)" absent
else
  echo "ninja_builds: skipped the missing permission, since root or 'setpriv' is missing"
fi

# A file system of four pages, which nobody else sees. What was put before it was full is whole.
if unshare -rm mount -t tmpfs none "$folder" 2>/dev/null; then
  tree full examples/hello
  (cd "$tree" && "$gn" gen out >/dev/null && mv out whole && mkdir out)
  cannot_write "a full disk" unshare -rm bash -c 'mount -t tmpfs -o size=16k none out && "$@"; status=$?; cp -r out kept; exit $status' bash
  expect "what is on the full disk" "$(cd "$tree/kept" && find . -type f ! -exec cmp -s {} "../whole/{}" \; -print)" ""
  expect "how much is on the full disk" "$(cd "$tree/kept" && [ "$(find . -type f | wc -l)" -gt 0 ] && echo some)" some
else
  echo "ninja_builds: skipped the full disk, since it can't be had here"
fi

echo "ninja_builds: $passed passed, $failed failed"
[ "$failed" -eq 0 ]
