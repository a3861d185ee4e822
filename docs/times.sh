#!/usr/bin/env bash
# times.sh LOG: writes the table of docs/CONTRIBUTING.md, between its two marks, from what ./test printed: the seconds of each crate as dist/archive proved it,
# over what was proved already (crates above the library have none), and how many of its wrong programs rt ci refused.
set -eu
page=$(dirname "$0")/CONTRIBUTING.md
log=${1:?times.sh LOG: what ./test printed}
table=$(LC_ALL=C awk '
    function seen(crate) { if (!(crate in known)) { known[crate] = 1; order[++n] = crate } }
    /^archive: [a-z_]+ proved \([0-9]+ s\)/ { seen($2); sub(/\(/, "", $4); proof[$2] = $4; p += $4 }
    /^rt: must-fail [a-z_]+\/.*: refused, as it must be/ { split($3, part, "/"); seen(part[1]); edits[part[1]]++; e++ }
    /^== [0-9]+ seconds$/ { whole = $2 }
    END {
        print "| crate | proof, seconds | wrong programs |"
        print "|---|---|---|"
        for (i = 1; i <= n; i++) printf "| %s | %s | %d |\n", order[i], proof[order[i]], edits[order[i]]
        printf "| all | %d | %d |\n\n", p, e
        if (whole) printf "The whole of `./test`: %d min %d s.\n", whole / 60, whole % 60
    }' "$log")
awk -v table="$table" '
    /^<!-- times -->$/ { print; print table; skip = 1; next }
    /^<!-- end of times -->$/ { skip = 0 }
    !skip' "$page" > "$page.new"
mv "$page.new" "$page"
