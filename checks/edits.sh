#!/usr/bin/env bash
# Tries the wrong bodies below checks/edits/, which the gate leaves out: edits.sh [CRATE..], or all of them. Each has to be refused.
set -euo pipefail
cd "$(dirname "$0")/.."
crates=("$@")
if [ $# = 0 ]; then
    for folder in checks/edits/*/; do crates+=("$(basename "$folder")"); done
fi
copy=$(mktemp -d)
trap 'rm -rf "$copy"' EXIT
# What the crates' own checks kept stays here: rt takes it over by itself.
tar -c --exclude='crates/*/out' crates crates.txt HANDLES | tar -x -C "$copy"
for crate in "${crates[@]}"; do
    if [ ! -d "checks/edits/$crate" ]; then
        printf 'checks/edits has no folder %s\n' "$crate"
        exit 1
    fi
    rm -rf "$copy/crates/$crate/must-fail"
    cp -r "checks/edits/$crate" "$copy/crates/$crate/must-fail"
done
cd "$copy"
rt must-fail "${crates[@]}"
