#!/usr/bin/env bash
# Times the reading of a network text of about the longest length: 64 formats, 64 nodes, 128 fibres, 128 groups with
# names of 32 bytes, each fibre in eight groups. Then that of a text of 1 MiB, refused for what stands behind its end.
set -eu
top=$(cd "$(dirname "$0")/.." && pwd)
work=$(mktemp -d)
trap 'rm -rf "$work"' EXIT
python3 - >"$work/net" <<'PY'
name = lambda kind, i: f"{kind}{i:03d}".ljust(32, "x")
print("net 1\nband -512 511\nguard 64\nk 16\nservices 4096\njournal 67108864")
for i in range(64):
    print("format", name("m", i), 100000, 10000 - i)
for i in range(64):
    print("node", name("n", i))
for i in range(128):
    print("fibre", name("f", i), name("n", i % 64), name("n", (i % 64 + 1 + i // 64) % 64), 100000)
for i in range(128):
    print("group", name("g", i), *[name("f", j) for j in range(128) if (j - i) % 16 == 0])
print("end")
PY
echo quit >"$work/commands"
"$top/eonplan" dry "$work/net" "$work/commands" >/dev/null
start=$(date +%s.%N)
for _ in 1 2 3 4 5 6 7 8 9 10; do "$top/eonplan" dry "$work/net" "$work/commands" >"$work/out"; done
end=$(date +%s.%N)
cat "$work/out"
awk -v a="$start" -v b="$end" -v n="$(stat -c %s "$work/net")" 'BEGIN { printf "a network of %d bytes: %.4f s a run, with the start of the program\n", n, (b - a) / 10 }'
{ cat "$work/net"; yes 'fibre f001 n001 n002 100' | head -c $((1048576 - $(stat -c %s "$work/net"))); } >"$work/long"
start=$(date +%s.%N)
for _ in 1 2 3 4 5 6 7 8 9 10; do "$top/eonplan" dry "$work/long" "$work/commands" >"$work/out" || true; done
end=$(date +%s.%N)
cat "$work/out"
awk -v a="$start" -v b="$end" -v n="$(stat -c %s "$work/long")" 'BEGIN { printf "a network of %d bytes: %.4f s a run, with the start of the program\n", n, (b - a) / 10 }'
