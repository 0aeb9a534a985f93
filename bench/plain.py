#!/usr/bin/env python3
"""A plain planner for `dry` and `drive`, written from docs/RULES.md and docs/FORMATS.md alone, to compare replies with.

usage: plain.py dry NET COMMANDS
       plain.py drive NET SEED COUNT
       plain.py lines NET SEED COUNT      the generated lines

It takes an accepted network and lines of the grammar, and answers every command but `report`.
"""
import heapq
import sys
from itertools import count


class Network:
    def __init__(self, path):
        self.formats, self.nodes, self.fibres, self.groups, self.parts = [], [], [], [], []
        for line in open(path, encoding="ascii").read().splitlines():
            word, *rest = line.split(" ")
            if word == "band":
                self.parts.append(tuple(map(int, rest)))
            elif word in ("guard", "k", "services"):
                setattr(self, word, int(rest[0]))
            elif word == "format":
                self.formats.append((rest[0], int(rest[1]), int(rest[2])))
            elif word == "node":
                self.nodes.append(rest[0])
            elif word == "fibre":
                self.fibres.append((rest[0], rest[1], rest[2], int(rest[3])))
            elif word == "group":
                self.groups.append((rest[0], rest[1:]))
        self.lo, self.hi = self.parts[0][0], self.parts[-1][1]
        self.reach = max(row[1] for row in self.formats)
        self.by_name = {f[0]: f for f in self.fibres}
        self.risk_of = {
            f[0]: {f[0]} | {name for name, members in self.groups if f[0] in members} for f in self.fibres
        }
        self.leaving = {node: [] for node in self.nodes}
        for name, a, b, km in self.fibres:
            self.leaving[a].append((name, b, km))
            self.leaving[b].append((name, a, km))
        self.known, self.risks = {}, {}

    def ends_at(self, src, fibres):
        """The node where a walk of these fibres ends, if it is a route; else None."""
        node, seen = src, {src}
        for name in fibres:
            _, a, b, _ = self.by_name[name]
            if node not in (a, b):
                return None
            node = b if node == a else a
            if node in seen:
                return None
            seen.add(node)
        return node

    def km(self, fibres):
        return sum(self.by_name[f][3] for f in fibres)

    def risk(self, fibres):
        if fibres not in self.risks:
            self.risks[fibres] = frozenset().union(*(self.risk_of[f] for f in fibres))
        return self.risks[fibres]

    def format(self, km):
        best = None
        for row in self.formats:
            if row[1] >= km and (best is None or row[2] > best[2]):
                best = row
        return best

    def need(self, rate, km):
        row = self.format(km)
        return None if row is None else -(-rate // row[2]) + self.guard

    def least(self, src, dst, banned, closed, km, names):
        """The least route from here on, by length and then by names, behind this beginning."""
        heap, done = [(km, names, src)], set(closed)
        while heap:
            km, names, node = heapq.heappop(heap)
            if node in done:
                continue
            if node == dst:
                return km, names
            done.add(node)
            for name, far, more in self.leaving[node]:
                if name not in banned and far not in done and km + more <= self.reach:
                    heapq.heappush(heap, (km + more, names + (name,), far))
        return None

    def deviations(self, src, dst, banned, found, route):
        """From each node of a route, the least one that goes on as none that was found does."""
        node, closed, km = src, set(), 0
        for at, name in enumerate(route):
            front = route[:at]
            taken = {other[at] for _, other in found if len(other) > at and other[:at] == front}
            # Only the first fibre may not be one of these.
            best = None
            for fibre, far, more in self.leaving[node]:
                if fibre in banned or fibre in taken or far in closed or km + more > self.reach:
                    continue
                rest = self.least(far, dst, banned, closed | {node}, km + more, front + (fibre,))
                if rest and (best is None or rest < best):
                    best = rest
            if best:
                yield best
            closed.add(node)
            _, a, b, more = self.by_name[name]
            node, km = (b if node == a else a), km + more

    def routes(self, src, dst, banned=frozenset()):
        key = (src, dst, banned)
        if key not in self.known:
            found, waiting = [], set()
            first = None if src == dst else self.least(src, dst, banned, (), 0, ())
            while first and len(found) < self.k:
                found.append(first)
                waiting |= set(self.deviations(src, dst, banned, found, first[1]))
                waiting -= set(found)
                first = min(waiting) if waiting else None
            self.known[key] = [names for _, names in found]
        return self.known[key]

    def backups(self, src, dst, work):
        banned = frozenset(f for f in self.by_name if self.risk_of[f] & self.risk(work))
        return self.routes(src, dst, banned)


class Leg:
    """A working path and a backup path, each of fibres, centre and width, and the centre that the channel drifts to."""

    def __init__(self, work, back):
        self.work, self.back, self.to = work, back, None

    def units(self):
        """The lowest and the highest unit that the working path holds."""
        _, n, m = self.work
        ends = (n, n if self.to is None else self.to)
        return min(ends) - m, max(ends) + m - 1

    def back_units(self):
        _, n, m = self.back
        return n - m, n + m - 1


class Service:
    def __init__(self, name, src, dst, rate, kind, leg):
        self.name, self.src, self.dst, self.rate, self.kind, self.legs = name, src, dst, int(rate), kind, [leg]

    def drifts(self):
        return self.legs[0].to is not None

    def moves(self):
        return self.drifts() or len(self.legs) == 2


def bits(ends, lo):
    return ((1 << (ends[1] - ends[0] + 1)) - 1) << (ends[0] - lo)


def overlap(a, b):
    return a[0] <= b[1] and b[0] <= a[1]


class Planner:
    def __init__(self, net):
        self.net, self.live = net, {}
        self.outside = sum(1 << (u - net.lo) for u in range(net.lo, net.hi + 1) if not any(a <= u <= b for a, b in net.parts))

    def part(self, lo, hi):
        return next((part for part in self.net.parts if part[0] <= lo and hi <= part[1]), None)

    def others(self, but=None):
        for s in self.live.values():
            for leg in s.legs:
                if leg is not but:
                    yield s, leg

    def taken(self, fibres, kind, risk, own=None, but=None):
        """Units that may not be had on these fibres: by a working path (risk None), or by a backup of this class and risk."""
        units, fibres = self.outside, set(fibres)
        for s, leg in self.others(but):
            if not fibres.isdisjoint(leg.work[0]):
                units |= bits(leg.units(), self.net.lo)
            if leg.back and not fibres.isdisjoint(leg.back[0]):
                both = risk is not None and kind == s.kind == "shared"
                if not both or s is not own and self.net.risk(leg.work[0]) & risk:
                    units |= bits(leg.back_units(), self.net.lo)
        return units

    def least(self, units, m):
        """The least centre of a slot of this width on units that are not taken."""
        free = ~units & ((1 << (self.net.hi - self.net.lo + 1)) - 1)
        width = 2 * m
        step = 1
        while step < width:  # a bit stays where as many free ones stand from it on
            more = min(step, width - step)
            free &= free >> more
            step += more
        return None if not free else self.net.lo + (free & -free).bit_length() - 1 + m

    def unknown(self, names, known):
        return next((f"unknown {name}" for name in names if name not in known), None)

    def path_text(self, path):
        return f"{','.join(path[0])} {path[1]} {path[2]}"

    def leg_text(self, leg):
        return "w " + self.path_text(leg.work) + (" b " + self.path_text(leg.back) if leg.back else "")

    def service_text(self, s):
        text = f"service {s.name} {s.src} {s.dst} {s.rate} {s.kind} {self.leg_text(s.legs[0])}"
        if s.drifts():
            return f"{text} to {s.legs[0].to}"
        return text + (f" and {self.leg_text(s.legs[1])}" if len(s.legs) == 2 else "")

    def refusal(self, name):
        if name in self.live:
            return f"taken {name}"
        if len(self.live) >= self.net.services:
            return "full services"
        return None

    def first_fit(self, src, dst, rate, kind, avoided=None, own=None):
        """The first leg that fits, or the reply where there is none."""
        net, tried = self.net, 0
        for w in net.routes(src, dst, frozenset([avoided] if avoided else [])):
            backs = [None] if kind == "bare" else net.backups(src, dst, w)
            tried += len(backs)
            m = net.need(rate, net.km(w))
            n = self.least(self.taken(w, kind, None), m) if backs else None
            for b in backs if n is not None else []:
                if b is None:
                    return Leg((w, n, m), None)
                bm = net.need(rate, net.km(b))
                bn = self.least(self.taken(b, kind, net.risk(w), own), bm)
                if bn is not None:
                    return Leg((w, n, m), (b, bn, bm))
        return "noroute" if tried == 0 else f"blocked {tried}"

    def admit(self, name, src, dst, rate, kind):
        said = self.unknown([src, dst], self.net.nodes) or self.refusal(name)
        if said:
            return said
        leg = self.first_fit(src, dst, int(rate), kind)
        if isinstance(leg, str):
            return leg
        self.live[name] = Service(name, src, dst, rate, kind, leg)
        return f"ok admit {name} {self.leg_text(leg)}"

    def make(self, name, *avoid):
        said = self.unknown([name], self.live) or self.unknown(avoid[1:], self.net.by_name)
        if said:
            return said
        s = self.live[name]
        if s.moves():
            return f"busy {name}"
        leg = self.first_fit(s.src, s.dst, s.rate, s.kind, avoid[1] if avoid else None, s)
        if isinstance(leg, str):
            return leg
        s.legs.append(leg)
        return f"ok make {name} {self.leg_text(leg)}"

    def clash(self, kind, leg, own=None):
        for name, s in self.live.items():
            for other in s.legs if s is not own else []:
                if not self.clear(kind, leg, s.kind, other):
                    return f"clash {name}"
        return None

    def clear(self, kind, a, kind_b, b):
        def meet(p, p_units, q, q_units):
            return overlap(p_units, q_units) and not set(p[0]).isdisjoint(q[0])

        if meet(a.work, a.units(), b.work, b.units()):
            return False
        if b.back and meet(a.work, a.units(), b.back, b.back_units()):
            return False
        if a.back and meet(a.back, a.back_units(), b.work, b.units()):
            return False
        if a.back and b.back and meet(a.back, a.back_units(), b.back, b.back_units()):
            return kind == kind_b == "shared" and not self.net.risk(a.work[0]) & self.net.risk(b.work[0])
        return True

    def place(self, name, src, dst, rate, kind, *paths):
        net = self.net
        asked = [(tuple(paths[i].split(",")), int(paths[i + 1])) for i in range(0, len(paths), 2)]
        said = (
            self.unknown([src, dst], net.nodes)
            or self.unknown([f for fibres, _ in asked for f in fibres], net.by_name)
            or self.refusal(name)
        )
        if said:
            return said
        parts = ["work", "backup"]
        for part, (fibres, _) in zip(parts, asked):
            if net.ends_at(src, fibres) != dst or src == dst:
                return f"path {part}"
        needs = [net.need(int(rate), net.km(fibres)) for fibres, _ in asked]
        for part, m in zip(parts, needs):
            if m is None:
                return f"reach {part}"
        if len(asked) == 2:
            shared = net.risk(asked[0][0]) & net.risk(asked[1][0])
            if shared:
                return f"risk {min(shared)}"
        for part, m, (_, n) in zip(parts, needs, asked):
            if not self.part(n - m, n + m - 1):
                return f"band {part}"
        paths = [(fibres, n, m) for (fibres, n), m in zip(asked, needs)]
        leg = Leg(paths[0], paths[1] if len(paths) == 2 else None)
        said = self.clash(kind, leg)
        if said:
            return said
        self.live[name] = Service(name, src, dst, rate, kind, leg)
        return f"ok place {name} {self.leg_text(leg)}"

    def release(self, name):
        if name not in self.live:
            return f"unknown {name}"
        del self.live[name]
        return f"ok release {name}"

    def push(self, name, to):
        if name not in self.live:
            return f"unknown {name}"
        s, to = self.live[name], int(to)
        if s.moves():
            return f"busy {name}"
        fibres, n, m = s.legs[0].work
        if n == to:
            return f"same {name}"
        leg = Leg(s.legs[0].work, s.legs[0].back)
        leg.to = to
        if not self.part(*leg.units()):
            return "band work"
        said = self.clash(s.kind, leg, s)
        if said:
            return said
        s.legs[0] = leg
        return f"ok push {name} {n} {to}"

    def finish(self, name):
        if name not in self.live:
            return f"unknown {name}"
        s = self.live[name]
        if s.drifts():
            fibres, _, m = s.legs[0].work
            s.legs[0] = Leg((fibres, s.legs[0].to, m), s.legs[0].back)
        elif len(s.legs) == 2:
            del s.legs[0]
        else:
            return f"idle {name}"
        return f"ok finish {name}"

    def back(self, name):
        if name not in self.live:
            return f"unknown {name}"
        s = self.live[name]
        if s.drifts():
            s.legs[0].to = None
        elif len(s.legs) == 2:
            del s.legs[1]
        else:
            return f"idle {name}"
        return f"ok back {name}"

    def refit(self, name):
        if name not in self.live:
            return f"unknown {name}"
        s = self.live[name]
        if s.moves():
            return f"busy {name}"
        if s.kind != "shared":
            return f"{s.kind} {name}"
        leg = s.legs[0]
        fibres, n, m = leg.back
        to = self.least(self.taken(fibres, s.kind, self.net.risk(leg.work[0]), None, leg), m)
        s.legs[0] = Leg(leg.work, (fibres, to, m))
        return f"ok refit {name} {n} {to}"

    def show(self, name):
        return self.service_text(self.live[name]) if name in self.live else f"unknown {name}"

    def list(self):
        return "\n".join([f"list {len(self.live)}"] + [self.service_text(s) for s in self.live.values()])

    def routes(self, src, dst):
        said = self.unknown([src, dst], self.net.nodes)
        if said:
            return said
        found = self.net.routes(src, dst)
        lines = [
            f"route {i} {self.net.km(r)} {self.net.format(self.net.km(r))[0]} {','.join(r)}" for i, r in zip(count(1), found)
        ]
        return "\n".join([f"routes {len(found)}"] + lines)

    def held_on(self, fibre):
        """How many legs reserve each unit of the fibre for a shared backup."""
        sharers = [0] * (self.net.hi - self.net.lo + 2)
        for s, leg in self.others():
            if s.kind == "shared" and fibre in leg.back[0]:
                lo, hi = leg.back_units()
                for unit in range(lo, hi + 1):
                    sharers[unit - self.net.lo] += 1
        return sharers

    def lit_on(self, fibre):
        for s, leg in self.others():
            if fibre in leg.work[0]:
                yield leg.units(), s.name
            if s.kind == "dual" and fibre in leg.back[0]:
                yield leg.back_units(), s.name

    def map(self, fibre):
        if fibre not in self.net.by_name:
            return f"unknown {fibre}"
        lines = [(lo, f"lit {lo} {hi} {name}") for (lo, hi), name in self.lit_on(fibre)]
        start, last = None, 0
        for at, now in enumerate(self.held_on(fibre)):
            unit = self.net.lo + at
            if now != last:
                if last:
                    lines.append((start, f"held {start} {unit - 1} {last}"))
                start, last = unit, now
        lines.sort(key=lambda line: line[0])
        return "\n".join([f"map {fibre} {len(lines)}"] + [text for _, text in lines])

    def drill(self, group):
        if group not in self.net.by_name and group not in [name for name, _ in self.net.groups]:
            return f"unknown {group}"
        hits = [
            (s.name, which, leg.back)
            for s in self.live.values()
            for which, leg in zip(count(1), s.legs)
            if group in self.net.risk(leg.work[0])
        ]
        lines = [f"hit {name} {which} " + (f"b {self.path_text(back)}" if back else "dark") for name, which, back in hits]
        return "\n".join([f"drill {group} {len(hits)}"] + lines)

    def totals(self):
        lit = held = 0
        for fibre in self.net.by_name:
            lit += sum(hi - lo + 1 for (lo, hi), _ in self.lit_on(fibre))
            held += sum(1 for sharers in self.held_on(fibre) if sharers)
        return lit, held

    def stats(self):
        lit, held = self.totals()
        all_of = list(self.live.values())
        protected = sum(s.kind != "bare" for s in all_of)
        drifting, making = sum(s.drifts() for s in all_of), sum(len(s.legs) == 2 for s in all_of)
        return f"stats services {len(all_of)} protected {protected} drifting {drifting} making {making} lit {lit} held {held}"

    def lowest(self):
        """The lowest centre of each channel: one sweep from below, each over what lies below it."""
        backs = [(set(s.legs[0].back[0]), s.legs[0].back_units()[1]) for s in self.live.values() if s.legs[0].back]
        swept, lowest = [], {}
        for s in sorted(self.live.values(), key=lambda s: s.legs[0].units()[0]):
            fibres, n, m = s.legs[0].work
            lo, hi = s.legs[0].units()
            floor = self.part(lo, hi)[0]
            below = [top for on, top in backs if top < lo and not on.isdisjoint(fibres)]
            below += [top for on, top in swept if not on.isdisjoint(fibres)]
            low = max([floor] + [top + 1 for top in below])
            lowest[s.name] = low + m
            swept.append((set(fibres), low + 2 * m - 1))
        return lowest

    def rest(self, s, lowest):
        fibres, n, m = s.legs[0].work
        low = lowest[s.name] - m
        if low == self.part(*s.legs[0].units())[0]:
            return "floor"
        for other in self.live.values():
            on, _, width = other.legs[0].work
            if other is not s and lowest[other.name] + width == low and not set(on).isdisjoint(fibres):
                return f"on {other.name}"
        for other in self.live.values():
            back = other.legs[0].back
            if back and other.legs[0].back_units()[1] + 1 == low and not set(back[0]).isdisjoint(fibres):
                return f"over {other.name}"
        return "nothing"

    def compact(self):
        busy = next((name for name, s in self.live.items() if s.moves()), None)
        if busy:
            return f"busy {busy}"
        lowest = self.lowest()
        moves = [s for s in self.live.values() if lowest[s.name] != s.legs[0].work[1]]
        batch, waits = {}, {}
        for s in sorted(moves, key=lambda s: s.legs[0].units()[0]):
            fibres, n, m = s.legs[0].work
            waits[s.name] = [
                o for o in moves
                if o is not s and o.legs[0].units()[0] < n - m and o.legs[0].units()[1] >= lowest[s.name] - m
                and not set(o.legs[0].work[0]).isdisjoint(fibres)
            ]
            batch[s.name] = 1 + max((batch[o.name] for o in waits[s.name]), default=0)
        lines = []
        for s in sorted(moves, key=lambda s: batch[s.name]):
            line = f"move {batch[s.name]} {s.name} {s.legs[0].work[1]} {lowest[s.name]} {self.rest(s, lowest)}"
            if batch[s.name] > 1:
                line += f" after {next(o.name for o in waits[s.name] if batch[o.name] == batch[s.name] - 1)}"
            lines.append(line)
        return "\n".join([f"plan {max(batch.values(), default=0)} {len(moves)}"] + lines)

    def answer(self, line):
        word, *rest = line.split(" ")
        if word == "report":
            sys.exit("plain.py: report is not answered here")
        return "bye" if word == "quit" else getattr(self, word)(*rest)


def next_word(word):
    return (word * 6364136223846793005 + 1442695040888963407) % 2**64


def generated(net, seed, many):
    """The lines of a load."""
    nodes, fibres, before, word = net.nodes, net.fibres, 0, next_word(seed)
    for i in range(1, many + 1):
        earlier = f"s{1 + (word >> 8) % i}"
        a = (word >> 8) % len(nodes)
        b = a if len(nodes) == 1 else (a + 1 + (word >> 16) % (len(nodes) - 1)) % len(nodes)
        rate, kind = 100 * (1 + (word >> 24) % 4), "bare" if (word >> 32) % 4 == 0 else "shared"
        centre = net.lo + (word >> 16) % (net.hi - net.lo + 1)
        drill = f"drill {fibres[(word >> 8) % len(fibres)][0]}" if fibres else "stats"
        chosen = [f"admit s{i} {nodes[a]} {nodes[b]} {rate} {kind}"] * 8 + [f"release {earlier}"] * 2
        chosen += [f"push {earlier} {centre}", f"make {earlier}", f"back {earlier}", drill, f"refit {earlier}", "compact"]
        if before:
            yield f"finish s{1 + (before >> 8) % (i - 1)}"
            before = 0
        else:
            yield chosen[word >> 60]
            before = word if word >> 60 in (10, 11) else 0
        word = next_word(word)


def drive(planner, seed, many):
    kinds = dict.fromkeys(("ok", "blocked", "noroute", "memory", "other"), 0)
    for line in generated(planner.net, seed, many):
        first = planner.answer(line).split(" ", 1)[0].split("\n", 1)[0]
        kinds[first if first in kinds else "other"] += 1
    lit, held = planner.totals()
    for word, number in [*kinds.items(), ("live", len(planner.live)), ("lit", lit), ("held", held)]:
        print(word, number)


def main():
    mode, net = sys.argv[1], Network(sys.argv[2])
    planner = Planner(net)
    if mode == "drive":
        drive(planner, int(sys.argv[3]), int(sys.argv[4]))
    elif mode == "lines":
        print("\n".join(generated(net, int(sys.argv[3]), int(sys.argv[4]))))
    else:
        for line in open(sys.argv[3], encoding="ascii").read().splitlines():
            print(planner.answer(line))
            if line == "quit":
                break


main()
