#!/usr/bin/env bash
# Times `eonplan dry` on a stream of place lines, beside `cat` of the same file.
set -eu
lines=${1:-1000000}
top=$(cd "$(dirname "$0")/.." && pwd)
work=$(mktemp -d)
trap 'rm -rf "$work"' EXIT

# A band of 1,024 units: 512 services of two slot units each fit, and every other line clashes or is taken.
cat >"$work/net" <<'NET'
net 1
band -512 511
guard 0
k 1
services 4096
journal 4096
format q16 500 100
node A
node B
fibre ab A B 100
end
NET
awk -v n="$lines" 'BEGIN { for (i = 0; i < n; i++) printf "place s%d A B 100 bare ab %d\n", i, (i * 7) % 1000 - 500 }' >"$work/commands"

# The first call builds the program, where that is needed.
"$top/eonplan" dry "$work/net" /dev/null
measure() {
    local name=$1
    shift
    /usr/bin/env python3 - "$name" "$lines" "$work/out" "$@" <<'PY'
import subprocess, sys, time

def peak_of(pid):
    """The most memory that the process has held so far, in KiB."""
    try:
        with open(f"/proc/{pid}/status") as status:
            return max(int(line.split()[1]) for line in status if line.startswith("VmHWM"))
    except (OSError, ValueError):
        return 0

name, lines, out, *words = sys.argv[1:]
peak = 0
start = time.monotonic()
with open(out, "wb") as sink:
    process = subprocess.Popen(words, stdout=sink)
    while process.poll() is None:
        time.sleep(0.005)
        peak = peak_of(process.pid) or peak
spent = time.monotonic() - start
print(f"{name}: {int(lines) / spent:,.0f} lines/s, {spent:.2f} s, peak {peak / 1024:.1f} MiB, status {process.returncode}")
PY
}
measure "eonplan dry" "$top/eonplan" dry "$work/net" "$work/commands"
cut -d' ' -f1,2 "$work/out" | awk '{ print ($1 == "ok" ? "ok" : $1) }' | sort | uniq -c
measure "cat        " cat "$work/commands"
