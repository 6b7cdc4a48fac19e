#!/bin/sh
# Wrong definitions, which the laws, the closed examples or the theorems must refuse. Each edit of tools/definition_edits is made in a copy of
# rl_spec. Its last line, 'false: CRATE FILE LAW', names a law that is false then. All that CRATE stands on must still be proved and CRATE
# must not, and the law must be refused for its own sake. That all is proved as it stands is for the gate to say. With a name it tries that
# edit alone.
set -eu
cd "$(dirname "$0")/.."
new=$(mktemp -d)
trap 'rm -rf "$new"' EXIT
crates='rl_spec rl_laws rl_images rl_examples rl_theorems'

# Leaves of rl_examples in a repository only one file and what it uses: no other one is asked.
only() { # REPO FILE
    specs=$1/crates/rl_examples/specs wanted='' more=$2
    while [ -n "$more" ]; do
        wanted="$wanted $more"
        more=$(for name in $more; do
            sed -n 's/^use Rattle\.rl_examples\.specs\.\([A-Za-z0-9]*\).*/\1/p' "$specs/$name.antt"
        done | sort -u | while read -r name; do
            case " $wanted " in *" $name "*) ;; *) printf '%s ' "$name" ;; esac
        done)
    done
    : >"$specs/Lib.antt"
    for path in "$specs"/*.antt; do
        name=$(basename "$path" .antt)
        case " $wanted Lib " in
        *" $name "*) [ "$name" = Lib ] || echo "pub mod $name" >>"$specs/Lib.antt" ;;
        *) rm "$path" ;;
        esac
    done
}

# Tries one edit, in a repository of its own.
try() { # NAME
    edit=tools/definition_edits/$1.edit repo=$new/$1
    read -r crate file law <<EOF
$(sed -n 's/^false: //p' "$edit")
EOF
    mkdir -p "$repo/crates"
    for c in $crates; do
        cp -R "crates/$c" "$repo/crates"
        grep "^$c:" crates.txt
    done >"$repo/crates.txt"

    sh tools/apply_edit.sh "$edit" "$repo/crates/rl_spec" || return 1
    [ "$crate" != rl_examples ] || only "$repo" "$file"

    began=$(date +%s) status=0
    (cd "$repo/crates/$crate" && rt check) >"$repo/log" 2>&1 || status=$?
    took=$(($(date +%s) - began))
    if [ "$status" -eq 1 ] && [ "$(grep -c '^logic=not-proved' "$repo/log")" -eq 1 ] && ! grep -q 'did not build' "$repo/log" &&
        grep "/$file\.antt:[0-9:]* error: \`$law\`: " "$repo/log" | grep -qv 'was not admitted'
    then
        echo "definition $1: refused by $crate, as $law of $file is false ($took s)"
        rm -rf "$repo"
    else
        echo "definition $1: NOT REFUSED by $crate alone, and by $law of $file in it (exit $status, $took s); the last lines:"
        tail -n 20 "$repo/log"
        return 1
    fi
}

if [ $# -eq 1 ]; then
    try "$1"
    exit
fi

# as many at a time as there are processors, those that ask the theorems first, since they take the longest; what they say is shown in the order of their names
failed=0
{
    grep -l '^false: rl_theorems' tools/definition_edits/*.edit || :
    grep -L '^false: rl_theorems' tools/definition_edits/*.edit
} | sed 's|.*/||; s|\.edit$||' | xargs -P "$(nproc)" -I NAME sh -c 'sh tools/definition_edits.sh NAME >"$0/NAME.out" 2>&1' "$new" || failed=1
for edit in tools/definition_edits/*.edit; do
    cat "$new/$(basename "$edit" .edit).out"
done
exit "$failed"
