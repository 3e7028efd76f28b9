#!/usr/bin/env bash
# Tries one must-fail edit: make doubt EDIT=CRATE/LABEL. In a copy of the repository the crate is proved with the edit: what rt must-fail says of it, and
# what the prover says first. Run from the repository's root.
set -euo pipefail
crate=${1%%/*}
label=${1#*/}
edit=crates/$crate/must-fail/$label.edit
if [ ! -f "$edit" ]; then
    echo "usage: make doubt EDIT=CRATE/LABEL, for a file crates/CRATE/must-fail/LABEL.edit"
    exit 2
fi
dir=$(mktemp -d)
trap 'rm -rf "$dir"' EXIT
tar -c --exclude='crates/*/out' crates crates.txt | tar -xC "$dir"
find "$dir/crates" -name '*.edit' ! -path "$dir/$edit" -delete
cat "$edit"
cd "$dir"
rt must-fail "$crate" | grep --line-buffered '^rt: must-fail' || true

# the edit, as rt must-fail reads it
while IFS= read -r line || [ -n "$line" ]; do
    case $line in
    'file: '*) file=crates/$crate/${line#file: } ;;
    'old: '*) old=${line#old: } ;;
    'new:'*)
        new=${line#new:}
        text=$(<"$file")
        printf '%s\n' "${text/"$old"/"${new# }"}" >"$file"
        ;;
    esac
done <"$edit"
echo "the first errors:"
(cd "crates/$crate" && rt check >"$dir/log" 2>&1) || true
grep -m 3 -E '^(note: )?[^ ]+:[0-9]+:[0-9]+: ' "$dir/log" | cut -c 1-400
