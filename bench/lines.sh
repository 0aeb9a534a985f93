#!/usr/bin/env bash
# Times the reading of a million mixed lines of which most are refused at once: unknown names and faults.
set -eu
lines=${1:-1000000}
top=$(cd "$(dirname "$0")/.." && pwd)
work=$(mktemp -d)
trap 'rm -rf "$work"' EXIT
"$top/bench/mixed_lines.sh" "$lines" >"$work/commands"
"$top/eonplan" dry "$top/crates/worked_rows/data/ring/q.net" /dev/null
start=$(date +%s.%N)
"$top/eonplan" dry "$top/crates/worked_rows/data/ring/q.net" "$work/commands" >"$work/out"
end=$(date +%s.%N)
awk '{ print $1 }' "$work/out" | sort | uniq -c
awk -v a="$start" -v b="$end" -v n="$lines" -v s="$(stat -c %s "$work/commands")" 'BEGIN { printf "eonplan dry: %.2f s, %.0f lines/s, %.1f MB/s\n", b - a, n / (b - a), s / 1e6 / (b - a) }'
