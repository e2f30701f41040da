#!/usr/bin/env bash
# Shows that each piece of code in docs/REFUSED-CODE.md is refused, with the message that stands below it. Each is checked as a crate
# of its own in a temporary folder, beside a copy of the crates; the checkout stays as it is.
set -eu
cd "$(dirname "$0")/.."
scratch=$(mktemp -d)
trap 'rm -rf "$scratch"' EXIT
tar --exclude=out --exclude=target --exclude=must-fail -cf - crates crates.txt | tar -C "$scratch" -xf -
cp docs/REFUSED-CODE.md "$scratch"
cd "$scratch"
# it may use the case and all that the case uses
sed -n 's/^case:\(.*\)/refused_code:\1 case/p' crates.txt >entry
cat entry >>crates.txt
mkdir -p pieces crates/refused_code/src
awk '/^```rust$/ { out = "pieces/" ++n ".rt"; next }
     /^```text$/ { out = "pieces/" n ".says"; next }
     /^```$/ { out = ""; next }
     out { print > out }' REFUSED-CODE.md
wrong=0
for piece in pieces/*.rt; do
    cp "$piece" crates/refused_code/src/lib.rt
    says=$(cat "${piece%.rt}.says")
    if said=$(cd crates/refused_code && timeout 900 rt check 2>&1); then
        echo "compiles, though it should not: $says"
        wrong=1
    elif grep -qFx -- "$says" <<<"$said"; then
        echo "refused: $says"
    else
        printf 'refused with another message than: %s\n%s\n' "$says" "$(tail -3 <<<"$said")"
        wrong=1
    fi
done
exit "$wrong"
