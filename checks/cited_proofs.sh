#!/usr/bin/env bash
# No crate cites the proofs of another crate, unless that is theory alone: definitions, and laws on public calls that do nothing.
# What a crate with code lets others know, it says in its contracts. A lemma that stands in such a crate's proofs is free to change.
set -u
cd "$(dirname "$0")/.."

if ! command -v awk >/dev/null 2>&1; then
  echo "cited proofs: skipped, since 'awk' is missing"
  exit 0
fi

# Says in a word whether the sources under a crate's folder are theory: each function takes nothing and gives nothing back, and its
# body is empty or calls such functions alone. The layout is that of `rt fmt`: the body of a law stands in lines of its own.
kind_of() {
  find "$1/src" -name '*.rt' -exec cat {} + | awk '
    { sub(/[ \t]*\/\/.*/, "") }
    /(^|[^a-z_])fn [a-z_]/ { functions++ }
    /^pub fn [a-z_]+(<.*>)?\(\)$/ { laws++ }
    inside && /^}$/ { inside = 0; next }
    inside && !/^    [a-z_]+\(\);$/ && !/^$/ { working = 1 }
    /^{$/ { inside = 1 }
    END { print (functions == laws && !working) ? "theory" : "code" }'
}

# The lines under this folder of crates that cite proofs of a crate beside their own that has code.
offences() {
  local crates=$1 working=' ' folder
  for folder in "$crates"/*/; do
    [ "$(kind_of "${folder%/}")" = theory ] || working+="$(basename "$folder") "
  done
  find "$crates" -name out -prune -o \( -name '*.rt' -o -name '*.antt' \) -exec grep -HnE '(Rattle\.[a-z_]+\.|[a-z_]+::)proofs(\.|::)' {} + \
    | awk -v skipped="${#crates}" -v working="$working" '
      {
        own = substr($0, skipped + 2)
        sub(/\/.*/, "", own)
        rest = $0
        while (match(rest, /[a-z_]+(\.|::)proofs(\.|::)/)) {
          cited = substr(rest, RSTART, RLENGTH)
          sub(/(\.|::)proofs.*/, "", cited)
          rest = substr(rest, RSTART + RLENGTH)
          if (cited != own && index(working, " " cited " ")) { print; next }
        }
      }'
}

# The check tried: of what three crates cite, two lines are in the wrong.
tried=$(mktemp -d)
mkdir -p "$tried"/{works,laws,cites}/{src,proofs}
printf 'pub fn double(n: u32) -> u32\n    ensures { result \xe2\x89\xa1 n + n }\n{\n    n + n\n}\n' >"$tried/works/src/lib.rt"
printf '/// A law.\npub fn a_law()\n    ensures { Law }\n{}\n\n/// Another.\npub fn another()\n    ensures { Law }\n{\n    a_law();\n}\n' >"$tried/laws/src/lib.rt"
printf 'use Rattle.works.proofs.Own.{own}\n' >"$tried/works/proofs/More.antt"
printf 'use Rattle.laws.proofs.Laws.{law}\nuse Rattle.works.proofs.Own.{own}\n' >"$tried/cites/proofs/Bad.antt"
printf '#[tactic(auto, using(crate::proofs::More::more, works::proofs::Own::own))]\n' >"$tried/cites/src/lib.rt"
found=$(offences "$tried" | sort)
wanted=$(printf '%s\n%s' "$tried/cites/proofs/Bad.antt:2:use Rattle.works.proofs.Own.{own}" \
  "$tried/cites/src/lib.rt:1:#[tactic(auto, using(crate::proofs::More::more, works::proofs::Own::own))]")
rm -rf "$tried"
if [ "$found" != "$wanted" ]; then
  printf 'cited proofs: the check itself is wrong, it finds in its own example: %s\n' "$found" >&2
  exit 1
fi

found=$(offences crates)
if [ -n "$found" ]; then
  printf '%s\n' "$found" >&2
  printf 'cited proofs: %d lines cite proofs of a crate that has code: let that crate say it in a contract, or in a law on a public call\n' \
    "$(printf '%s\n' "$found" | wc -l)" >&2
  exit 1
fi
echo "cited proofs: no crate cites proofs of another crate that has code"
