#!/usr/bin/env bash
# Answers generated streams by `eonplan dry` and by the plain planner, compares the replies, and times eonplan.
#
# usage: compare.sh [LINES] [SEED]     admissions, placements, releases, moves, plans, listings and drills on a network of fourteen
#                                      nodes
set -eu
lines=${1:-1000}
seed=${2:-1}
top=$(cd "$(dirname "$0")/.." && pwd)
work=$(mktemp -d)
trap 'rm -rf "$work"' EXIT
cp "$top/bench/n.net" "$work/net"
python3 - "$lines" "$seed" "$work/net" >"$work/commands" <<'PY'
import random, sys

lines, seed, net = int(sys.argv[1]), int(sys.argv[2]), sys.argv[3]
draw = random.Random(seed)
words = [line.split() for line in open(net)]
nodes = [w[1] for w in words if w[0] == "node"]
fibres = [w[1:4] for w in words if w[0] == "fibre"]
groups = [w[1] for w in words if w[0] == "group"]
for i in range(1, lines + 1):
    kind = draw.randrange(100)
    src, dst = draw.sample(nodes, 2)
    rate = 100 * draw.randint(1, 4)
    if kind < 60:
        print(f"admit s{i} {src} {dst} {rate} {draw.choice(['bare', 'shared', 'shared', 'shared'])}")
    elif kind < 70:
        fibre, a, b = draw.choice(fibres)
        print(f"place s{i} {a} {b} {rate} bare {fibre} {draw.randint(-300, 490)}")
    elif kind < 80:
        print(f"release s{draw.randint(1, i)}")
    elif kind < 92:
        name = f"s{draw.randint(1, i)}"
        print(draw.choice([f"push {name} {draw.randint(-300, 490)}", f"make {name}", f"finish {name}", f"back {name}", f"refit {name}"]))
    elif kind < 94:
        print(f"show s{draw.randint(1, i)}")
    elif kind < 95:
        print("compact")
    elif kind < 97:
        print(f"map {draw.choice(fibres)[0]}")
    elif kind < 98:
        print(f"routes {src} {dst}")
    elif kind < 99:
        print(f"drill {draw.choice(groups + [fibre[0] for fibre in fibres])}")
    else:
        print("stats")
print("list")
print("quit")
PY
# The first call builds the program, where that is needed.
"$top/eonplan" dry "$work/net" /dev/null
start=$(date +%s.%N)
"$top/eonplan" dry "$work/net" "$work/commands" >"$work/out"
end=$(date +%s.%N)
python3 "$top/bench/plain.py" dry "$work/net" "$work/commands" >"$work/expected"
cmp "$work/out" "$work/expected" && echo "the replies to $lines generated lines are those of the plain planner"
awk '{ print ($1 == "ok" ? "ok " $2 : $1) }' "$work/out" | sort | uniq -c | sort -rn | head -8
awk -v a="$start" -v b="$end" -v n="$lines" 'BEGIN { printf "eonplan dry: %.2f s, %.0f lines/s\n", b - a, n / (b - a) }'
