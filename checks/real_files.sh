#!/usr/bin/env bash
# Runs the built program over real folders: what no contract can say of files and standard output.
set -u
cd "$(dirname "$0")/.."
top=$PWD
passed=0
failed=0

# The gate has just built the program; where it is missing all the same, it is proved and linked here.
gn=$top/crates/gn/out/gn
if [ ! -x "$gn" ]; then
  if ! command -v rt >/dev/null 2>&1; then
    echo "real_files: skipped, since 'rt' is missing"
    exit 0
  fi
  (cd crates/gn && rt run </dev/null >/dev/null 2>&1)
fi
if [ ! -x "$gn" ]; then
  echo "real_files: the program isn't built" >&2
  exit 1
fi

folder=$(mktemp -d)
trap 'chmod -R u+rwx "$folder"; rm -rf "$folder"' EXIT

# expect NAME STATUS TEXT: compares the last run, whose output stands in $out and whose status in $status
expect() {
  if [ "$status" = "$2" ] && [ "$out" = "$3" ]; then
    passed=$((passed + 1))
  else
    failed=$((failed + 1))
    printf 'real_files: %s: want status %s and %q, got status %s and %q\n' "$1" "$2" "$3" "$status" "$out" >&2
  fi
}

# run FOLDER WORD..: runs the program there; the text keeps its newlines by an `x` at its end
run() {
  local where=$1
  shift
  out=$(cd "$where" && "$gn" "$@" </dev/null 2>&1; status=$?; printf x; exit $status)
  status=$?
  out=${out%x}
}

# project FOLDER..: folders with a dotfile, a build configuration and its toolchain
project() {
  for each in "$@"; do
    mkdir -p "$folder/$each/tools"
    printf 'buildconfig = "//c.gn"\n' >"$folder/$each/.gn"
    printf 'set_default_toolchain("//tools:t")\n' >"$folder/$each/c.gn"
    printf 'toolchain("t") {\n  tool("stamp") {\n    command = "touch {{output}}"\n  }\n}\n' >"$folder/$each/tools/BUILD.gn"
  done
}

usage=$'usage: gn gen|ls|desc|refs|path|check|args|sample ...\n'
cannot_read=$'gn: cannot read //BUILD.gn\n'
absent=$'ERROR at //BUILD.gn:1:1: No such file "//BUILD.gn".\n'

project groups empty unread unfinished bytes returns folder dangling big limit imports import_folder import_root pipe
mkdir -p "$folder/folder/BUILD.gn" "$folder/bare"
printf 'group("b") {\n}\ngroup("a") {\n}\n' >"$folder/groups/BUILD.gn"
printf 'x = 1\n' >"$folder/unread/BUILD.gn"
printf 'print("before")\nx = [\n' >"$folder/unfinished/BUILD.gn"
printf 'print("\377$0xFE")\n' >"$folder/bytes/BUILD.gn"
printf 'print("one")\r\ngroup("g") {\r\n}\r\n' >"$folder/returns/BUILD.gn"
ln -s nowhere "$folder/dangling/BUILD.gn"
mkdir -p "$folder/imports/a/b" "$folder/import_folder/a.gni"
printf 'import("a/b/c.gni")\nimport("//d.gni")\nt(x) {\n}\n' >"$folder/imports/BUILD.gn"
printf 'import("../../d.gni")\nx = d\nprint("c")\n' >"$folder/imports/a/b/c.gni"
printf 'd = "e"\ntemplate("t") {\n  group(target_name) {\n  }\n}\nprint("d")\n' >"$folder/imports/d.gni"
printf 'import("a.gni")\n' >"$folder/import_folder/BUILD.gn"
printf 'import("//")\n' >"$folder/import_root/BUILD.gn"
mkfifo "$folder/pipe/BUILD.gn"
head -c 16777217 /dev/zero | tr '\0' ' ' >"$folder/big/BUILD.gn"
head -c 16777216 /dev/zero | tr '\0' ' ' >"$folder/limit/BUILD.gn"

run "$folder/bare" ls out
expect "no dotfile" 1 $'ERROR at //.gn:1:1: No such file "//.gn".\n'
run "$folder/groups" ls out
expect "two groups" 0 $'//:a\n//:b\n'
run "$folder/empty" ls out
expect "no build file" 1 "$absent"
run "$folder/dangling" ls out
expect "a link to nothing" 1 "$absent"
run "$folder/unread" ls out
expect "a name that nothing reads" 1 $'ERROR at //BUILD.gn:1:3: Assignment had no effect: "x".\n'
run "$folder/unfinished" ls out
expect "a file that ends too early" 1 $'ERROR at //BUILD.gn:3:1: Unexpected token.\n'
run "$folder/returns" ls out
expect "lines that end in a carriage return" 0 $'one\n//:g\n'
run "$folder/bytes" ls out
expect "bytes that are no text" 0 $'\xff\xfe\n'
run "$folder/limit" ls out
expect "a file of the limit" 0 ""
run "$folder/big" ls out
expect "a file beyond the limit" 1 $'ERROR at //BUILD.gn:1:1: File "//BUILD.gn" is too big.\n'
run "$folder/folder" ls out
expect "a folder in the file's place" 3 "$cannot_read"
run "$folder/imports" ls out
expect "imports below folders" 0 $'c\nd\n//:e\n'
run "$folder/import_folder" ls out
expect "a folder in an import's place" 3 $'gn: cannot read //a.gni\n'
run "$folder/import_root" ls out
expect "the source root in an import's place" 3 $'gn: cannot read //\n'
run "$folder/pipe" ls out
expect "a named pipe in the file's place" 3 "$cannot_read"
project dotfile_folder dotfile_big no_configuration secondary itself toolchain arguments arguments_folder pattern no_text
rm "$folder/dotfile_folder/.gn" && mkdir "$folder/dotfile_folder/.gn"
head -c 16777217 /dev/zero | tr '\0' ' ' >"$folder/dotfile_big/.gn"
rm "$folder/no_configuration/c.gn"
mkdir -p "$folder/secondary/s" "$folder/arguments/out/deep" "$folder/arguments_folder/out/args.gn"
printf 'buildconfig = "//c.gn"\nsecondary_source = "//s/"\n' >"$folder/secondary/.gn"
mv "$folder/secondary/c.gn" "$folder/secondary/s/c.gn"
printf 'print(default_toolchain, target_gen_dir)\n' >"$folder/secondary/BUILD.gn"
printf 'import("//c.gn")\nset_default_toolchain("//tools:t")\n' >"$folder/itself/c.gn"
: >"$folder/toolchain/c.gn"
printf 'declare_args() {\n  a = 1\n}\nprint(a)\n' >"$folder/arguments/BUILD.gn"
printf 'a = 2\nb = 3\n' >"$folder/arguments/out/deep/args.gn"
printf 'group("a") {\n}\ngroup("b") {\n}\n' >"$folder/pattern/BUILD.gn"
printf 'print(read_file("//\377", "string"))\n' >"$folder/no_text/BUILD.gn"

run "$folder/dotfile_folder" ls out
expect "a folder in the dotfile's place" 3 $'gn: cannot read //.gn\n'
run "$folder/dotfile_big" ls out
expect "a dotfile beyond the limit" 1 $'ERROR at //.gn:1:1: File "//.gn" is too big.\n'
run "$folder/no_configuration" ls out
expect "no build configuration" 1 $'ERROR at //c.gn:1:1: No such file "//c.gn".\n'
run "$folder/secondary" ls out
expect "a build configuration below the secondary source tree" 0 $'//tools:t //out/gen\n'
run "$folder/itself" ls out
expect "a build configuration that imports itself" 1 $'ERROR at //c.gn:1:1: Import cycle.\n'
run "$folder/toolchain" ls out
expect "a build configuration without default toolchain" 1 $'ERROR at //c.gn:1:1: "set_default_toolchain" is missing.\n'
run "$folder/arguments" ls out
expect "no arguments" 0 $'1\n'
run "$folder/arguments" ls out/deep
expect "arguments that are kept" 0 $'2\nWARNING: The build argument "b" has no effect.\n'
run "$folder/arguments" ls out/deep "--args=a = 4"
expect "arguments of the command line" 0 $'4\n'
run "$folder/arguments" ls out --args=a
expect "arguments that are no file" 1 $'ERROR at --args:1:2: Unexpected token.\n'
run "$folder/arguments_folder" ls out
expect "a folder in the place of the kept arguments" 3 $'gn: cannot read //out/args.gn\n'
run "$folder/pattern" ls out //:b
expect "a pattern" 0 $'//:b\n'
run "$folder/pattern" ls out b
expect "a bad pattern" 1 $'ERROR: Invalid pattern.\n'
run "$folder/no_text" ls out
expect "a path that is no text" 1 $'ERROR at //BUILD.gn:1:17: Invalid path.\n'
run "$folder/groups" ls .
expect "the source root as build directory" 2 "$usage"
run "$folder/groups"
expect "no words" 2 "$usage"
run "$folder/groups" frob
expect "an unknown word" 2 "$usage"
run "$folder/groups" gen
expect "a command without its folder" 2 "$usage"
run "$folder/groups" ls out --frob
expect "a bad switch" 2 "$usage"
run "$folder/groups" ls $'\xff'
expect "a word that is no text" 2 "$usage"
run / ls out
expect "the root of the host" 2 "$usage"

# The system tells no length of such a file.
if [ -r /proc/sys/kernel/ostype ]; then
  project untold
  ln -s /proc/sys/kernel/ostype "$folder/untold/system"
  printf 'print(read_file("//system", "trim string"))\n' >"$folder/untold/BUILD.gn"
  run "$folder/untold" ls out
  expect "a file whose length isn't told" 0 $'Linux\n'
else
  echo "real_files: skipped the file whose length isn't told, since /proc is missing"
fi

project puts
mkdir -p "$folder/puts/d/e"
printf 'group("a") {\n  deps = [ "//d/e:c" ]\n}\n' >"$folder/puts/BUILD.gn"
printf 'group("c") {\n}\n' >"$folder/puts/d/e/BUILD.gn"
made=$'Done. Made 2 targets from 3 files\n'
run "$folder/puts" gen out
expect "folders that are missing" 0 "$made"
cp -r "$folder/puts/out" "$folder/whole"
touch -d 2002-02-03 "$folder/mark"

# puts NAME FILES: makes all files of the build directory old and runs `gen`, which writes just these files anew; all hold again what they held
puts() {
  find "$folder/puts/out" -type f -exec touch -d 2001-02-03 {} +
  run "$folder/puts" gen out
  out=$out$(cd "$folder/puts/out" && find . -type f -newer "$folder/mark" | LC_ALL=C sort)$(diff -r "$folder/puts/out" "$folder/whole")
  expect "$1" 0 "$made$2"
}

file=$folder/puts/out/obj/a.ninja
puts "files that hold their bytes" ""
tr b-y c-z <"$folder/whole/obj/a.ninja" >"$file"
puts "a file of other bytes" "./obj/a.ninja"
echo >>"$file"
puts "a file that is too long" "./obj/a.ninja"
: >"$file"
puts "an empty file" "./obj/a.ninja"
rm -r "$folder/puts/out/obj/d"
puts "a folder that is missing" "./obj/d/e/c.ninja"
rm "$file" && ln -s "$folder/whole/obj/a.ninja" "$file"
puts "a link to a file of the same bytes" "./obj/a.ninja"
rm "$file" && mkfifo "$file"
puts "a named pipe in a file's place" "./obj/a.ninja"
echo >>"$file" && echo left >"$folder/puts/out/obj/.gn-new"
puts "what a stopped run has left" "./obj/a.ninja"

# Of 400 files one can't be put: those before it stand whole, none behind it does, nothing is left beside, and no text was said.
many() {
  project "$1"
  mkdir -p "$folder/$1/out/obj" "$folder/$1/g2"
  for each in {000..399}; do
    printf 'group("g%s") {\n}\n' "$each"
  done >"$folder/$1/BUILD.gn"
  printf 'group("x") {\n}\n' >"$folder/$1/g2/BUILD.gn"
  printf 'group("all") {\n  deps = [ "//g2:x" ]\n}\n' >>"$folder/$1/BUILD.gn"
}
many every
run "$folder/every" gen out
expect "many files" 0 $'Done. Made 402 targets from 3 files\n'

# Of many files two don't hold what they are to hold: only these are written.
find "$folder/every/out" -type f -exec touch -d 2001-02-03 {} +
cp -r "$folder/every/out" "$folder/every_whole"
tr b-y c-z <"$folder/every_whole/obj/g200.ninja" >"$folder/every/out/obj/g200.ninja" && rm "$folder/every/out/obj/g100.ninja"
touch -d 2001-02-03 "$folder/every/out/obj/g200.ninja"
run "$folder/every" gen out
out=$out$(cd "$folder/every/out" && find . -type f -newer "$folder/mark" | LC_ALL=C sort)$(diff -r "$folder/every/out" "$folder/every_whole")
expect "two of many files" 0 $'Done. Made 402 targets from 3 files\n./obj/g100.ninja\n./obj/g200.ninja'

# A file has two names, and both are written: it holds what is put last, also where it held that before.
project names
mkdir -p "$folder/names/out/a"
ln -s a "$folder/names/out/b"
printf 'group("g") {\n}\nwrite_file("//out/a/x", "one")\nwrite_file("//out/b/x", "two")\n' >"$folder/names/BUILD.gn"
for each in first second; do
  run "$folder/names" gen out
  out=$out$(cat "$folder/names/out/a/x")
  expect "a file of two names, the $each time" 0 $'Done. Made 1 targets from 2 files\ntwo'
done

# stops NAME FOLDER LAST: runs `gen`, which ends with status 4 behind the last file that can be put
stops() {
  run "$folder/$2" gen out
  out=$out$(cd "$folder/$2/out" && find . -type f ! -empty | LC_ALL=C sort)
  for each in $(cd "$folder/$2/out" && find . -type f ! -empty); do
    cmp "$folder/$2/out/$each" "$folder/every/out/$each" >/dev/null 2>&1 || out="$out"$'\n'"$each isn't whole"
  done
  expect "$1" 4 "$(cd "$folder/every/out" && find . -type f | LC_ALL=C sort | sed "/^${3//\//\\/}\$/q")"
}

many taken && mkdir "$folder/taken/out/obj/g300.ninja"
stops "a folder in the place of one of many files" taken ./obj/g299.ninja
many closed_off && : >"$folder/closed_off/out/obj/g2"
stops "an empty file in the place of a folder among many files" closed_off ./obj/g199.ninja
rmdir "$folder/taken/out/obj/g300.ninja"
run "$folder/taken" gen out
out=$out$(diff -r "$folder/taken/out" "$folder/every/out")
expect "a run behind one that stopped among its files" 0 $'Done. Made 402 targets from 3 files\n'

# Permissions bind everyone but root, so these run as nobody where that can be had.
if [ "$(id -u)" -eq 0 ] && command -v setpriv >/dev/null 2>&1; then
  project closed
  cp "$folder/groups/BUILD.gn" "$folder/closed/BUILD.gn"
  chmod 755 "$folder"
  cp "$gn" "$folder/gn"
  chmod 755 "$folder/gn"
  chmod 000 "$folder/closed/BUILD.gn"
  out=$(cd "$folder/closed" && setpriv --reuid 65534 --regid 65534 --clear-groups "$folder/gn" ls out </dev/null 2>&1; status=$?; printf x; exit $status)
  status=$?
  out=${out%x}
  expect "a file that may not be read" 3 "$cannot_read"
else
  echo "real_files: skipped the missing permission, since root or 'setpriv' is missing"
fi

(cd "$folder/groups" && "$gn" ls out </dev/null >&-)
status=$?
out=
expect "a closed standard output" 4 ""
if [ -c /dev/full ]; then
  (cd "$folder/groups" && "$gn" ls out </dev/null >/dev/full)
  status=$?
  expect "a full standard output" 4 ""
else
  echo "real_files: skipped the full standard output, since /dev/full is missing"
fi

echo "real_files: $passed passed, $failed failed"
[ "$failed" -eq 0 ]
