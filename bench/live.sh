#!/usr/bin/env bash
# Times `exposed`, `lights` and `audit` of the mode `live` over 4,096 services and 256 groups: streams of twenty equal questions, less one
# that only begins and ends.
#
# usage: live.sh [PROGRAM]     the program of ./eonplan, if none is named
set -eu
top=$(cd "$(dirname "$0")/.." && pwd)
program=${1:-$top/eonplan}
work=$(mktemp -d)
trap 'rm -rf "$work"' EXIT
. "$top/bench/seconds.sh"
python3 "$top/bench/journals.py" live "$work/net" "$work/journal"
printf 'quit\n' >"$work/quit"
asked=20
yes exposed | head -$asked >"$work/exposed"
{ echo fail a00 && yes exposed | head -$asked; } >"$work/exposed behind a failure"
yes audit s00x00 | head -$asked >"$work/audit"
yes lights | head -$asked >"$work/lights"
# The first call builds the program, where that is needed.
"$program" live "$work/net" "$work/journal" "$work/quit" >/dev/null

opening=$(seconds "$program" live "$work/net" "$work/journal" "$work/quit")
echo "the opening and quit: $opening s"
for stream in exposed "exposed behind a failure" audit lights; do
    took=$(seconds "$program" live "$work/net" "$work/journal" "$work/$stream")
    awk -v a="$opening" -v b="$took" -v of="$stream" -v n="$asked" -v first="$(head -1 "$work/out")" \
        'BEGIN { printf "%s: %.0f ms a question, the first line is %s\n", of, (b - a) * 1000 / n, first }'
done
