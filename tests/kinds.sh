#!/bin/sh
# A desk's number and an endpoint's are kinds of number that cannot be swapped (decision 75): an edit that passes the one for the other is
# refused by the type checker, before any proof. A must-fail edit has to reach the prover, so this one is made here, in a copy.
set -eu
cd "$(dirname "$0")/.."
work=$(mktemp -d)
trap 'rm -rf "$work"' EXIT
trap 'exit 1' HUP INT TERM
cp crates.txt "$work"
for part in src specs proofs; do
    for folder in crates/*/"$part"; do
        mkdir -p "$work/${folder%/*}"
        cp -r "$folder" "$work/$folder"
    done
done

# swap CRATE OLD NEW EXPECTED FOUND: the edit changes the crate's code, and the type checker says why it is refused.
swap() {
    source=crates/$1/src/lib.rt
    sed "s/$2/$3/" "$source" >"$work/$source"
    cmp -s "$source" "$work/$source" && { echo "kinds: '$2' is not in $source" >&2; exit 1; }
    if said=$(cd "$work/crates/$1" && rt check 2>&1); then
        echo "kinds: $3 is accepted in $source" >&2
        exit 1
    fi
    printf '%s\n' "$said" | grep -q "^src/lib.rt:.*error\[mismatched-types\]: expected \`$4\`, found \`$5\`" || {
        printf '%s\n' "$said" >&2
        exit 1
    }
    cp "$source" "$work/$source"
}

swap capi_classroom 'desk::event(classroom, DeskNumber(desk)' 'desk::event(classroom, model::EndpointNumber(desk)' DeskNumber EndpointNumber
swap roster '^            event,$' '            Event { endpoint: self.number, ..event },' EndpointNumber DeskNumber
echo "kinds: an endpoint's number is no desk's, and a desk's is no endpoint's"
