#!/bin/sh
# apply_edit.sh EDIT FOLDER: makes an edit in a copy of its crate; the old text must stand there once.
set -eu
edit=$1 folder=$2
file=$(sed -n 's/^file: //p' "$edit")
edited=$(mktemp)
trap 'rm -f "$edited"' EXIT
OLD=$(sed -n 's/^old: //p' "$edit") NEW=$(sed -n 's/^new: //p' "$edit") awk '
    { text = text $0 "\n" }
    END {
        old = ENVIRON["OLD"]
        at = index(text, old)
        rest = substr(text, at + length(old))
        if (old == "" || !at || index(rest, old)) exit 1
        printf "%s%s%s", substr(text, 1, at - 1), ENVIRON["NEW"], rest
    }' "$folder/$file" >"$edited" || { echo "$edit: BAD EDIT: its 'old:' text is not in $file once"; exit 1; }
cp "$edited" "$folder/$file"
