#!/usr/bin/env bash
# Asks `routes` for every pair of nodes, and `admit` (with a backup, then `release`) for some of them, by `eonplan dry`,
# beside networkx's shortest_simple_paths in the same run: on the network of fourteen nodes, on a grid of 7 by 8 nodes with
# one node apart, and on a network at the limits (64 nodes, 128 fibres, 16 routes). Compares the lengths of all routes, and
# which demands are admitted, and prints seconds. Wants Python with networkx.
#
# usage: routes.sh [SEED] [ADMISSIONS]     a seed for the network at the limits, and for how many pairs `admit` is asked
set -eu
seed=${1:-1}
admissions=${2:-40}
top=$(cd "$(dirname "$0")/.." && pwd)
work=$(mktemp -d)
trap 'rm -rf "$work"' EXIT
cp "$top/bench/n.net" "$work/fourteen.net"
cp "$top/crates/worked_rows/data/networks/grid.net" "$work/grid.net"
python3 "$top/bench/limits.py" "$seed" >"$work/limits.net"
# The first call builds the program, where that is needed.
"$top/eonplan" dry "$work/grid.net" /dev/null >/dev/null
cat >"$work/compare.py" <<'PY'
import itertools, random, subprocess, sys, time
import networkx as nx

program, net, commands, title, seed, admissions = sys.argv[1:]
words = [line.split() for line in open(net)]
nodes = [w[1] for w in words if w[0] == "node"]
k = next(int(w[1]) for w in words if w[0] == "k")
reach = max(int(w[2]) for w in words if w[0] == "format")
risk = {w[1]: {w[1]} for w in words if w[0] == "fibre"}
graph = nx.Graph()
graph.add_nodes_from(("node", n) for n in nodes)
for w in words:
    if w[0] == "fibre":  # a node for each fibre too: shortest_simple_paths takes no two edges between two nodes
        for end in w[2:4]:
            graph.add_edge(("node", end), ("fibre", w[1]), km=int(w[4]))
    if w[0] == "group":
        for fibre in w[2:]:
            risk[fibre].add(w[1])


def routes(a, b, without=frozenset()):
    left = graph.subgraph(v for v in graph if v[0] == "node" or v[1] not in without) if without else graph
    if not nx.has_path(left, ("node", a), ("node", b)):
        return []
    paths = itertools.islice(nx.shortest_simple_paths(left, ("node", a), ("node", b), weight="km"), k)
    found = [(nx.path_weight(left, path, "km") // 2, [name for kind, name in path if kind == "fibre"]) for path in paths]
    return [(km, fibres) for km, fibres in found if km <= reach]


def candidates(a, b):
    count = 0
    for _, fibres in routes(a, b):
        risks = set().union(*(risk[fibre] for fibre in fibres))
        count += len(routes(a, b, {fibre for fibre in risk if risk[fibre] & risks}))
    return count


def answered(lines):
    with open(commands, "w") as out:
        out.writelines(line + "\n" for line in lines)
    began = time.perf_counter()
    run = subprocess.run([program, "dry", net, commands], stdout=subprocess.PIPE, check=True, text=True)
    return time.perf_counter() - began, run.stdout.splitlines()


def timed(work, pairs):
    began = time.perf_counter()
    done = [work(a, b) for a, b in pairs]
    return time.perf_counter() - began, done


pairs = list(itertools.combinations(nodes, 2))
ours, replies = answered(f"routes {a} {b}" for a, b in pairs)
peer, theirs = timed(routes, pairs)
at, told = 0, []
for _ in pairs:
    count = int(replies[at].split()[1])
    told.append([int(line.split()[2]) for line in replies[at + 1 : at + 1 + count]])
    at += 1 + count
same = told == [[km for km, _ in found] for found in theirs]
print(f"{title}: routes of {len(pairs)} pairs, k {k}: eonplan {ours:.2f} s, networkx {peer:.2f} s, {'the same' if same else 'OTHER'} lengths", flush=True)

some = random.Random(int(seed)).sample(pairs, min(int(admissions), len(pairs)))
ours, replies = answered(line for a, b in some for line in (f"admit s {a} {b} 100 shared", "release s"))
peer, theirs = timed(candidates, some)
admitted = [line.startswith("ok admit") for line in replies if not line.startswith(("ok release", "unknown"))]
fits = admitted == [count > 0 for count in theirs]
print(f"{title}: admit of {len(some)} pairs: eonplan {ours:.2f} s, networkx {peer:.2f} s, {'the same' if fits else 'OTHER'} demands are admitted", flush=True)
sys.exit(0 if same and fits else 1)
PY
for net in fourteen grid limits; do
    python3 "$work/compare.py" "$top/eonplan" "$work/$net.net" "$work/commands" "$net" "$seed" "$admissions"
done
