#!/bin/sh
# Refuses a crate, other than lab_lattice and lab_text, that depends on the parts of a label. A crate of tests may make labels from
# their parts.
cd "$(dirname "$0")/../crates" || exit 1
above=$(ls | grep -v -e '^lab_lattice$' -e '^lab_text$')
allowed='lab_lattice\.specs\.Label\.|lab_lattice\.proofs\.Labels\.|lab_lattice::\{?(Label|Lattice|bottom)(, (Label|Lattice|bottom))*\}?;|lab_lattice::bottom\(\)'
opening='\b(bottom|dominates|label_cmp)\b'
found=$(for crate in $above; do
    grep -rnE 'lab_lattice(\.specs|\.proofs|::)' --include='*.rt' --include='*.antt' "$crate/src" "$crate"/specs "$crate"/proofs 2>/dev/null
done | grep -vE "$allowed|^[a-z_]+_tests/src/"; for crate in $above; do
    grep -rnE "^ *unfolding.*$opening|unfolding\(.*lab_lattice|unfold .*$opening.* in " --include='*.rt' --include='*.antt' "$crate/src" "$crate"/specs "$crate"/proofs 2>/dev/null
done)
if [ -n "$found" ]; then
    echo "these lines depend on the parts of a label:"
    echo "$found"
    exit 1
fi
