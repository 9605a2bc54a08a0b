"""Computes the laws of true time on runs: that their premises can be met, and that each of them says something.

A model at the level of messages stands here beside the program: clocks, slots, delays that don't fall, exchanges, alignment. What it gives for
a scenario is held to the report, and the laws are computed on it: each at every place of which it speaks, which are counted.
"""
import heapq
import itertools
import os

from answers import EXAMPLES, run

SCENARIOS = os.path.join(EXAMPLES, "scenarios")
MILLION = 1000000
NAMES = ["echoes", "estimates", "exchanges", "own values", "peers' values", "instants", "two peers"]
USUAL = {"drift": 50, "spacing": 1000, "slow": 60000, "age": 1000000, "limit": 20000}


class Scenario:
    """The settings and the records that the model knows; flips of one frame are a message with other phases."""

    def __init__(self, text):
        rows = [row.split(",") for row in text.splitlines() if not row.startswith("#")]
        of = lambda name: [list(map(int, row[1:])) for row in rows if row[0] == name]
        self.set = dict(USUAL, **{key: int(value) for name, key, value in [row for row in rows if row[0] == "set"]})
        self.stations = range(1, self.set["stations"] + 1)
        self.starts = dict(of("clock"))
        self.rates, self.delays = of("rate"), of("delay")
        self.flipped = {(row[0], row[2], row[3]) for row in of("flip")}
        self.slots = -(-36 // self.set["channels"])
        self.phases = {station: self.readings(station) for station in self.stations}

    def readings(self, station):
        """The phase of a station's clock at each tick up to the end."""
        rates = [(0, 0)] + [(row[0], row[2]) for row in self.rates if row[1] == station]
        until = [begun for begun, _ in rates[1:]] + [self.set["end"]]
        gains = [[MILLION + rate] * (min(end, self.set["end"]) - begun) for (begun, rate), end in zip(rates, until)]
        return list(itertools.accumulate(itertools.chain.from_iterable(gains), initial=self.starts.get(station, 0) * MILLION))

    def sample_ticks(self, station):
        """The ticks, from 1 on, at which the number of a station's clock rises."""
        numbers = [phase // (MILLION * self.set["spacing"]) for phase in self.phases[station][:self.set["end"]]]
        return [tick for tick in range(1, len(numbers)) if numbers[tick] > numbers[tick - 1]]

    def stamp(self, station, tick):
        return self.phases[station][tick] // MILLION

    def delay(self, sender, receiver, tick):
        return next((row[3] for row in reversed(self.delays) if row[1:3] == [sender, receiver] and row[0] <= tick), 1000)


class Line:
    """One direction: what was sent, what was accepted, and the exchanges that its receiver kept, each with its four true times or none."""

    def __init__(self):
        self.queue, self.begun, self.accepted, self.kept, self.placed, self.free = [], [], [], [], {}, 0


class Model:
    def __init__(self, scenario):
        self.s = scenario
        self.lines = {(i, j): Line() for i in scenario.stations for j in scenario.stations if i != j}
        self.taken = {station: {} for station in scenario.stations}
        self.judged = {station: -1 for station in scenario.stations}
        self.told, self.held, self.failed, self.due = [], dict.fromkeys(NAMES, 0), [], []

    def hold(self, name, holds, *place):
        self.held[name] += 1
        if not holds:
            self.failed.append((name,) + place)

    def run(self):
        """Goes from one tick at which something can happen to the next."""
        end, last = self.s.set["end"], None
        samples = {station: set(self.s.sample_ticks(station)) for station in self.s.stations}
        self.due = sorted(set(range(0, end, 125)).union(*samples.values()))
        while self.due and self.due[0] < end:
            tick = heapq.heappop(self.due)
            if tick != last:
                self.step(tick, [station for station in self.s.stations if tick in samples[station]])
            last = tick
        return self

    def step(self, tick, sampling):
        for receiver in self.s.stations:
            for sender in self.peers(receiver):
                self.take(tick, sender, receiver)
        for station in sampling:
            self.sample(tick, station)
        for station in self.s.stations if tick % 125 == 0 else []:
            self.slot(tick, station)

    def peers(self, me):
        return [station for station in self.s.stations if station != me]

    def take(self, tick, sender, receiver):
        queue = self.lines[sender, receiver].queue
        if queue and queue[0][0] <= tick:
            message = queue.pop(0)[1]
            if message:
                self.accept(tick, sender, receiver, message)
            self.look(tick, receiver)
            heapq.heappush(self.due, tick + 1)

    def sample(self, tick, station):
        number, rest = divmod(self.s.stamp(station, tick), self.s.set["spacing"])
        if rest <= 1 and number > max(self.taken[station], default=-1):
            self.taken[station][number] = tick
            self.judge(tick, station, number)
        self.look(tick, station)

    def slot(self, tick, me):
        for peer in self.peers(me):
            line, newest = self.lines[me, peer], max(self.taken[me], default=None)
            message = None
            if tick >= line.free and newest is not None and (not line.begun or newest > line.begun[-1]["number"]):
                heard = self.lines[peer, me].accepted
                message = {"number": newest, "at": tick, "sent": self.s.stamp(me, tick), "echo": heard[-1] if heard else None, "honest": True}
                self.echo(message, heard, tick)
                line.begun.append(message)
                line.free = tick + 125 * self.s.slots
            whole = line.begun and tick == line.begun[-1]["at"] + 125 * (self.s.slots - 1)
            came = dict(line.begun[-1], honest=(tick, me, peer) not in self.s.flipped) if whole else None
            line.queue.append((tick + self.s.delay(me, peer, tick), came))
            heapq.heappush(self.due, line.queue[-1][0])
        self.look(tick, me)

    def echo(self, message, heard, tick):
        """A message echoes the last one that its sender accepted, at an earlier entry, by the stamps of both."""
        if message["echo"]:
            last = message["echo"]
            self.hold("echoes", last is heard[-1] and last["came"] <= tick and last["stamp"] == self.s.stamp(last["to"], last["came"]), tick)

    def accept(self, tick, sender, me, message):
        line = self.lines[sender, me]
        stamp = self.s.stamp(me, tick)
        receipt = dict(message, came=tick, stamp=stamp, to=me)
        line.accepted.append(receipt)
        kept = self.exchange(line, receipt)
        force = self.in_force(line, stamp)
        if kept and force:
            self.estimate(tick, me, sender, force)
        if force:
            self.place(tick, sender, me, receipt, force)

    def exchange(self, line, second):
        first = second["echo"]
        if first is None:
            return False
        a1, b2, b3, a4 = first["sent"], first["stamp"], second["sent"], second["stamp"]
        legs = (first["at"], first["came"], second["at"], second["came"]) if first["honest"] and second["honest"] else None
        trip = (a4 - a1) - (b3 - b2)
        if trip <= self.s.set["slow"]:
            line.kept.append({"twice": (b2 - a1) + (b3 - a4), "trip": trip, "a1": a1, "legs": legs})
        return trip <= self.s.set["slow"]

    def in_force(self, line, now):
        candidates = [e for e in line.kept[-8:][::-1] if 0 <= now - e["a1"] <= self.s.set["age"]]
        return min(candidates, key=lambda e: e["trip"], default=None)

    def error(self, tick, me, peer, exchange):
        return abs(MILLION * exchange["twice"] - 2 * (self.s.phases[peer][tick] - self.s.phases[me][tick]))

    def bound(self, tick, exchange):
        sent, came, turned, back = exchange["legs"]
        return MILLION * abs((came - sent) - (back - turned)) + 4 * self.s.set["drift"] * (tick - sent) + 2 * MILLION

    def estimate(self, tick, me, peer, exchange):
        bound = self.bound(tick, exchange) if exchange["legs"] else "-"
        self.told.append("est,%d,%d,%d,%d,%d,%d,%s" % (tick, me, peer, exchange["twice"], exchange["trip"], self.error(tick, me, peer, exchange), bound))

    def look(self, tick, me):
        """At an entry of a station: how far what is in force is off, and how old it is."""
        drift = self.s.set["drift"]
        for peer in self.peers(me):
            force = self.in_force(self.lines[peer, me], self.s.stamp(me, tick))
            if force and force["legs"]:
                self.hold("estimates", self.error(tick, me, peer, force) <= self.bound(tick, force), tick, me, peer)
                self.hold("exchanges", (MILLION - drift) * (tick - force["legs"][0]) < MILLION * (self.s.set["age"] + 1), tick, me, peer)

    def place(self, tick, sender, me, receipt, force):
        spacing, now = self.s.set["spacing"], receipt["stamp"]
        n = (spacing + 2 * receipt["number"] * spacing - force["twice"]) // (2 * spacing)
        placed = self.lines[sender, me].placed
        if n >= 0 and now - n * spacing < self.s.set["limit"] and n * spacing <= now + spacing and n not in placed:
            placed[n] = (receipt, force)
            self.judge(tick, me, n)

    def judge(self, tick, me, n):
        placed = {peer: self.lines[peer, me].placed.get(n) for peer in self.peers(me)}
        young = self.s.stamp(me, tick) - n * self.s.set["spacing"] < self.s.set["limit"]
        if n in self.taken[me] and all(placed.values()) and young and n > self.judged[me]:
            self.judged[me] = n
            self.told.append("set,%d,%d,%d" % (tick, me, n))
            self.values(tick, me, self.taken[me][n], placed)

    def values(self, tick, me, own, placed):
        """The values of a judged set: the own one is young, and each peer's was taken before it came, at nearly the same time."""
        drift, apart = self.s.set["drift"], {}
        self.hold("own values", (MILLION - drift) * (tick - own) < MILLION * self.s.set["limit"], tick, me)
        for peer, (receipt, force) in placed.items():
            if not (receipt["honest"] and force["legs"]):
                continue
            taken, (sent, came, turned, back) = self.taken[peer].get(receipt["number"]), force["legs"]
            self.hold("peers' values", taken is not None and taken < receipt["came"], tick, me, peer)
            near = MILLION * (self.s.set["spacing"] + abs((came - sent) - (back - turned)) + 6) + 4 * drift * (tick - min(sent, own, taken))
            self.hold("instants", 2 * MILLION * abs(own - taken) <= near, tick, me, peer)
            apart[peer] = taken, near
        for one, other in [(one, other) for one in apart for other in apart if one < other]:
            self.hold("two peers", 2 * MILLION * abs(apart[one][0] - apart[other][0]) <= apart[one][1] + apart[other][1], tick, me)


def lines_of(report):
    """The estimates of a report, and its sets without their letters."""
    return [line if line.startswith("est,") else line.rpartition(",")[0] for line in report if line.startswith(("est,", "set,"))]


def examples():
    for name in ["load", "drifting_clocks", "unequal_delays", "three_terminals", "tight_bound", "forged_message"]:
        with open(os.path.join(SCENARIOS, name + ".csv"), encoding="utf-8") as file:
            yield name, file.read()


def cases():
    seen = dict.fromkeys(NAMES, 0)
    for name, text in examples():
        model = Model(Scenario(text)).run()
        output, said, status = run(["bench"], text.encode())
        report = output.decode().splitlines()
        told = lines_of(report)
        yield "%s is told as the model has it" % name, (told, said, status), (model.told, b"", 0)
        yield "the laws hold of %s" % name, model.failed, []
        estimates = [line.split(",") for line in report if line.startswith("est,")]
        yield "no error of %s is above its bound" % name, [line for line in estimates if line[7] != "-" and int(line[6]) > int(line[7])], []
        yield "a bound of %s is missing only where one was forged" % name, any(line[7] == "-" for line in estimates), "forged,0" not in report
        seen = {name: seen[name] + model.held[name] for name in NAMES}
    yield "each law speaks of something", [name for name in NAMES if not seen[name]], []
