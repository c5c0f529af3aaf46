#!/bin/sh
# Writes the table between the two "figures" marks of docs/ARCHITECTURE.md anew: lines that are not empty, functions and edits of each crate.
#     sh docs/figures.sh
set -eu
cd "$(dirname "$0")/.."
lines() { find "$1" -name "$2" -exec cat {} + 2>/dev/null | grep -c . || true; }
{
  echo "| crate | specs | code and contracts | proofs | functions | edits |"
  echo "|---|---|---|---|---|---|"
  for crate in $(sed -n 's/^\([a-z0-9_]*\)\( staticlib\)\{0,1\}:.*/\1/p' crates.txt); do
    at=crates/$crate
    functions=$(cat "$at"/src/*.rt | grep -cE '^ *(pub )?(extern "C" )?fn ' || true)
    edits=$(find "$at/must-fail" -name '*.edit' 2>/dev/null | grep -c . || true)
    specs=$(lines "$at/specs" '*.antt')
    echo "| $crate | $specs | $(lines "$at/src" '*.rt') | $(lines "$at/proofs" '*.antt') | $functions | $edits |"
  done
} | awk -F ' [|] ' '{ print } NR > 2 { n++; for (i = 2; i <= 6; i++) sum[i] += $i }
    END { printf "| all %d |", n; for (i = 2; i <= 6; i++) printf " %d |", sum[i]; print "" }' >figures.md
awk '/^<!-- figures -->$/ { print; while ((getline line < "figures.md") > 0) print line; skip = 1; next }
     /^<!-- end of figures -->$/ { skip = 0 }
     !skip { print }' docs/ARCHITECTURE.md >architecture.md
mv architecture.md docs/ARCHITECTURE.md
rm -f figures.md
