#!/usr/bin/env bash
# Drives a generated load by `eonplan drive` and by the plain planner in the same run, on the network of fourteen nodes and on a
# network at the limits; compares the summaries, and prints seconds.
#
# usage: drive.sh [COUNT] [SEED]     how many commands (2,000, if not said; the plain planner takes some minutes for 100,000)
set -eu
count=${1:-2000}
seed=${2:-2026}
top=$(cd "$(dirname "$0")/.." && pwd)
work=$(mktemp -d)
trap 'rm -rf "$work"' EXIT
cp "$top/bench/n.net" "$work/fourteen"
python3 "$top/bench/limits.py" 1 >"$work/limits"
# The first call builds the program, where that is needed.
"$top/eonplan" drive "$work/fourteen" 0 1 >/dev/null

# The seconds that the words take; what they print goes to $work/out.
seconds() {
    local TIMEFORMAT='%R'
    { time "$@" >"$work/out"; } 2>&1
}

for net in fourteen limits; do
    ours=$(seconds "$top/eonplan" drive "$work/$net" "$seed" "$count")
    cp "$work/out" "$work/ours"
    plain=$(seconds python3 "$top/bench/plain.py" drive "$work/$net" "$seed" "$count")
    same=$(cmp -s "$work/ours" "$work/out" && echo "the same summary" || echo "ANOTHER SUMMARY")
    echo "$net: $count commands, eonplan drive $ours s, the plain planner $plain s, $same"
done
