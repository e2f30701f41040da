#!/usr/bin/env bash
# Plants the bugs of planted/crates/NAME.txt in a copy, one at a time, and tells which of them the prover lets pass. Without a name, those of all
# crates. They are too many for the gate, which tries the edits of crates/*/must-fail.
set -eu
cd "$(dirname "$0")/.."
scratch=$(mktemp -d)
trap 'rm -rf "$scratch"' EXIT
tar --exclude=out --exclude=target --exclude=must-fail -cf - crates crates.txt | tar -C "$scratch" -xf -
names=("$@")
if [ ${#names[@]} -eq 0 ]; then
    for file in planted/crates/*.txt; do names+=("$(basename "$file" .txt)"); done
fi
for name in "${names[@]}"; do
    mkdir -p "$scratch/crates/$name/must-fail"
    awk -v folder="$scratch/crates/$name/must-fail" '
        /^== / { out = folder "/" $2 ".edit"; next }
        out { print > out }' "planted/crates/$name.txt"
done
cd "$scratch"
rt must-fail "${names[@]}" 2>&1 | tee said | grep -v 'refused, as it must be' | grep 'must-fail/' || true
printf '%d planted, %d refused\n' "$(find crates -name '*.edit' | wc -l)" "$(grep -c 'refused, as it must be' said)"
