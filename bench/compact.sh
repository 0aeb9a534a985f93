#!/usr/bin/env bash
# Times `compact` over 1,000 and over 4,000 services on a network at the limits: 64 nodes in a ring of 64 fibres, with a
# second fibre beside all but one of them. Each service takes one to four fibres in a row, and stands a little above its lowest place, so
# that nearly all move. What the placements take is timed alone, and taken off.
#
# usage: compact.sh [SEED]
set -eu
seed=${1:-1}
top=$(cd "$(dirname "$0")/.." && pwd)
work=$(mktemp -d)
trap 'rm -rf "$work"' EXIT
{
    printf 'net 1\nband -512 511\nguard 0\nk 1\nservices 4096\njournal 4096\nformat q16 100000 100\n'
    for i in $(seq -w 0 63); do echo "node n$i"; done
    for i in $(seq 0 63); do printf 'fibre a%02d n%02d n%02d 100\n' "$i" "$i" $(((i + 1) % 64)); done
    for i in $(seq 0 62); do printf 'fibre b%02d n%02d n%02d 100\n' "$i" "$i" $((i + 1)); done
    echo end
} >"$work/net"
"$top/eonplan" dry "$work/net" /dev/null >/dev/null
for services in 1000 4000; do
    python3 - "$top/eonplan" "$work/net" "$work/commands" "$services" "$seed" <<'PY'
import random, subprocess, sys, time

program, net, commands, count, seed = sys.argv[1:]
count, asked = int(count), 20
draw = random.Random(int(seed))
tops = {f"{kind}{i:02d}": -512 for kind in "ab" for i in range(64)}
lines = []
while len(lines) < count:
    kind, first, hops = draw.choice("ab"), draw.randrange(60), draw.randint(1, 4)
    fibres = [f"{kind}{first + i:02d}" for i in range(hops)]
    low = max(tops[f] for f in fibres) + draw.randint(0, 1)
    if low + 2 > 512:
        continue
    for fibre in fibres:
        tops[fibre] = low + 2
    route = ",".join(fibres)
    lines.append(f"place s{len(lines)} n{first:02d} n{first + hops:02d} 100 bare {route} {low + 1}\n")
draw.shuffle(lines)

def run(more):
    """The seconds of a run, and the first line that is not told of a placement."""
    with open(commands, "w") as out:
        out.writelines(lines + more)
    began = time.perf_counter()
    replies = subprocess.run([program, "dry", net, commands], stdout=subprocess.PIPE, check=True, text=True).stdout
    spent = time.perf_counter() - began
    told = [line for line in replies.splitlines() if line.startswith("plan ")]
    placed = sum(line.startswith("ok place ") for line in replies.splitlines())
    assert placed == count, (placed, count)
    return spent, told[:1]

alone, _ = run([])
whole, told = run(["compact\n"] * asked)
print(f"{count} services: {(whole - alone) / asked * 1000:.1f} ms a compact, {told[0]}; the placements {alone:.2f} s", flush=True)
PY
done
