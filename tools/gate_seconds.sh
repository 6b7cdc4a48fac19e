#!/bin/sh
# gate_seconds.sh [LOG]: what the gate did, from what `make test` or `rt ci` printed (a file, or standard input): for each crate how many
# functions were proved, or that it is kept from an earlier run, and how many of its must-fail edits are refused, those with the most
# first; the sums; and the seconds of the phases of `make test`. `rt ci` prints no seconds of its own.
set -eu
[ $# -eq 0 ] || exec <"$1"
awk '
    /^logic=proved functions=[0-9]+/ { split($2, of, "="); functions = of[2] }
    /^rt: [a-z_0-9]+ proved$/ { proved[$2] = functions; sum += functions }
    /^rt: [a-z_0-9]+ is kept: / { proved[$2] = "kept" }
    /^rt: must-fail [^ ]+: refused/ { split($3, name, "/"); edits[name[1]]++; many++ }
    /^seconds: / { phases = phases "| " $2 ", wall clock | " $3 " | |\n" }
    function weight(c) { return edits[c] * 1000 + proved[c] }
    END {
        for (c in proved) rows[++n] = c
        if (!n) { print "gate_seconds.sh: no crate was proved in this output" >"/dev/stderr"; exit 1 }
        print "| crate | functions | edits |"
        print "|---|---|---|"
        for (i = 1; i <= n; i++)
            for (j = i + 1; j <= n; j++)
                if (weight(rows[j]) > weight(rows[i]) || (weight(rows[j]) == weight(rows[i]) && rows[j] < rows[i])) {
                    c = rows[i]; rows[i] = rows[j]; rows[j] = c
                }
        for (i = 1; i <= n; i++) printf "| %s | %s | %d |\n", rows[i], proved[rows[i]], edits[rows[i]]
        printf "| all | %d | %d |\n%s", sum, many, phases
    }'
