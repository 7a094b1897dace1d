#!/usr/bin/env bash
# Loads sample trees with the built program, by `ls`, and makes their Ninja files, by `gen`, and does so with the original GN where
# that is installed: both must list the same targets and have Ninja run as many commands, and the time of processors and the memory that
# the built program takes must grow no faster than the tree. A line says where it is slower than the original, by the clock: the original
# works with several threads. The trees stand in memory where they can, so that no disk is measured.
set -u
cd "$(dirname "$0")/.."
top=$PWD

gn=$top/crates/gn/out/gn
if ! command -v python3 >/dev/null 2>&1; then
  echo "sample_tree: skipped, since python3 is missing"
  exit 0
fi
if [ ! -x "$gn" ]; then
  echo "sample_tree: the program isn't built" >&2
  exit 1
fi
original=$(command -v gn)
[[ $("${original:-false}" --version 2>/dev/null) =~ ^[0-9]+ ]] || original=

memory=/dev/shm
[ -w "$memory" ] && [ "$(df --output=avail "$memory" | tail -n 1)" -gt 500000 ] || memory=${TMPDIR:-/tmp}
folder=$(mktemp -d -p "$memory")
trap 'rm -rf "$folder"' EXIT
status=0

# wrong TEXT: something is told, and the check fails
wrong() {
  echo "sample_tree: $1" >&2
  status=1
}

# measured TREE TEXT PROGRAM COMMAND: milliseconds by the clock, those of processors, and MiB, of `ls` or of `gen` into a new folder;
# what is said stands in TEXT
measured() {
  local fresh=()
  [ "$4" = gen ] && fresh=(--fresh out)
  (cd "$1" && python3 "$top/checks/measure.py" "${fresh[@]}" --text "$2" "$3" "$4" out) || { cat "$2" >&2; return 1; }
}

# same_answers COUNT TREE COMMAND: what the two have said of the targets, or have written of them
same_answers() {
  if [ "$3" = ls ]; then
    diff <(LC_ALL=C sort "$folder/ours") <(LC_ALL=C sort "$folder/theirs") >/dev/null || wrong "$1: the two list different targets"
  elif command -v ninja >/dev/null 2>&1; then
    diff <(ninja -C "$2/ours" -t commands app | wc -l) <(ninja -C "$2/out" -t commands app | wc -l) >/dev/null \
      || wrong "$1: Ninja runs more commands for one of the two"
  fi
}

# compare COUNT TREE COMMAND: measures the built program and the original, whose build directory is left in place of the first one's
compare() {
  local ours spent mib theirs their_spent their_mib
  read -r ours spent mib <<<"$(measured "$2" "$folder/ours" "$gn" "$3")"
  [ -n "$ours" ] || { wrong "$1: $3: the program failed"; return; }
  # Ten times the tree takes ten times as much, and half as much again for what a busy machine adds.
  if [ -n "${times[$3]:-}" ] && [ "$spent" -gt $((15 * times[$3] + 100)) ]; then
    wrong "$1: $3: $spent ms of processors are more than linear, ${times[$3]} ms were taken by a tenth of the targets"
  fi
  if [ -n "${sizes[$3]:-}" ] && [ "$mib" -gt $((15 * sizes[$3] + 10)) ]; then
    wrong "$1: $3: $mib MiB are more than linear, ${sizes[$3]} MiB were taken by a tenth of the targets"
  fi
  times[$3]=$spent
  sizes[$3]=$mib
  if [ -z "$original" ]; then
    echo "sample_tree: $1: $3: $ours ms ($spent of processors), $mib MiB; the original gn is missing"
    return
  fi
  # The original lists targets over a build directory alone that it has made itself.
  rm -rf "$2/ours"
  [ "$3" = gen ] && mv "$2/out" "$2/ours"
  [ "$3" = ls ] && (cd "$2" && "$original" gen out </dev/null >/dev/null 2>&1)
  read -r theirs their_spent their_mib <<<"$(measured "$2" "$folder/theirs" "$original" "$3")"
  [ -n "$theirs" ] || { wrong "$1: $3: the original failed"; return; }
  same_answers "$1" "$2" "$3"
  echo "sample_tree: $1: $3: $ours ms ($spent of processors), $mib MiB, the original $theirs ms ($their_spent), $their_mib MiB"
  [ "$1" -eq 10000 ] && [ "$ours" -gt "$theirs" ] && echo "sample_tree: $1: $3: slower than the original"
}

declare -A times sizes
for count in 100 1000 10000; do
  tree=$folder/$count
  python3 checks/sample_tree.py "$tree" "$count"
  compare "$count" "$tree" ls
  lines=$(wc -l <"$folder/ours")
  [ "$lines" -eq $((count + 1)) ] || wrong "$count: want $((count + 1)) targets, got $lines"
  rm -rf "$tree/out"
  compare "$count" "$tree" gen
  [ "$(cat "$folder/ours")" = "Done. Made $((count + 1)) targets from $((count + 2)) files" ] || wrong "$count: gen says: $(head -n 1 "$folder/ours")"
  rm -rf "$tree"
done
exit "$status"
