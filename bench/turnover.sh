#!/usr/bin/env bash
# Times a stream of `place` and `release` lines on the network of fourteen nodes, some two hundred services live at once.
set -eu
lines=${1:-100000}
top=$(cd "$(dirname "$0")/.." && pwd)
work=$(mktemp -d)
trap 'rm -rf "$work"' EXIT
awk -v n="$lines" '
    BEGIN { fibres = 0 }
    $1 == "fibre" { name[fibres] = $2; from[fibres] = $3; to[fibres] = $4; fibres++ }
    END {
        for (i = 0; i < n / 2; i++) {
            f = i % fibres
            printf "place s%d %s %s 100 bare %s %d\n", i, from[f], to[f], name[f], int(i / fibres) % 30 * 24 - 270
            if (i >= 200) printf "release s%d\n", i - 200
        }
        for (i = n / 2 - 200; i < n / 2; i++) printf "release s%d\n", i
    }' "$top/bench/n.net" >"$work/commands"
"$top/eonplan" dry "$top/bench/n.net" /dev/null
start=$(date +%s.%N)
"$top/eonplan" dry "$top/bench/n.net" "$work/commands" >"$work/out"
end=$(date +%s.%N)
awk '{ print $1, $2 }' "$work/out" | sort | uniq -c
awk -v a="$start" -v b="$end" -v n="$(wc -l <"$work/commands")" 'BEGIN { printf "eonplan dry: %.2f s, %.0f lines/s\n", b - a, n / (b - a) }'
