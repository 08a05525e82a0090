"""Makes a journal of a made-up network: a grid of nodes that send packets to one another.

No node of it goes by the rules of controllers and switches. But each line has the form of a journal's, and follows from
those before: cells go from queue to queue, and labels and joins begin and end.
"""
import collections
import ipaddress
import json
import random

SIDE = 8
LEFT, UP, RIGHT, DOWN = 1, 2, 3, 4
STEPS = {LEFT: (-1, 0), UP: (0, -1), RIGHT: (1, 0), DOWN: (0, 1)}
OPPOSITE = {LEFT: RIGHT, UP: DOWN, RIGHT: LEFT, DOWN: UP}
FLOW = "45000411{}{}1389{:04x}"


class MadeUp:
    """A grid of SIDE times SIDE nodes, written event by event."""

    def __init__(self, out, seed=1):
        self.out = out
        self.random = random.Random(seed)
        self.number = 0
        self.messages = 0
        self.packets = 0
        self.goals = {}
        self.queues = collections.defaultdict(collections.deque)
        self.busy = []
        self.labels = {}
        self.joins = set()
        self.counts = collections.Counter()

    def write(self, value):
        self.out.write(json.dumps(value, separators=(",", ":")) + "\n")

    @staticmethod
    def name(place):
        return f"n{place[0] + SIDE * place[1] + 1}"

    @staticmethod
    def address(place):
        return f"10.{place[0]}.{place[1]}.1"

    def any_place(self):
        return self.random.randrange(SIDE), self.random.randrange(SIDE)

    @staticmethod
    def neighbour(place, port):
        beside = place[0] + STEPS[port][0], place[1] + STEPS[port][1]
        return beside if 0 <= beside[0] < SIDE and 0 <= beside[1] < SIDE else None

    def head(self):
        places = [(x, y) for y in range(SIDE) for x in range(SIDE)]
        links = [
            [f"{self.name(place)}:{port}", f"{self.name(self.neighbour(place, port))}:{OPPOSITE[port]}"]
            for place in places for port in (RIGHT, DOWN) if self.neighbour(place, port)
        ]
        nodes = [{"name": self.name(place), "address": self.address(place)} for place in places]
        self.write({"version": 1, "nodes": nodes, "links": links})

    def event(self, words, took=None, frames=(), put=(), says=()):
        self.number += self.random.randint(1, 3)
        self.counts.update(saying.split()[0] for saying in says)
        self.write({"event": self.number, "line": 1 + self.number // 3, "do": words, "took": took,
                    "frames": list(frames), "put": list(put), "says": list(says)})

    def put(self, place, end, channel, mark, last):
        """Puts a cell at the end of a queue of the node, and gives it as the journal shows it."""
        queue = f"{self.name(place)}:{end}"
        cell = {"queue": queue, "channel": channel, "mark": mark, "last": last}
        if not self.queues[queue]:
            self.busy.append((place, end))
        self.queues[queue].append(cell)
        return cell

    def way_to(self, place, goal):
        if place[0] != goal[0]:
            return RIGHT if place[0] < goal[0] else LEFT
        return DOWN if place[1] < goal[1] else UP

    def frame_to(self, place, goal, mark):
        """The frame and the cells of a packet that leaves the node on its way."""
        port = self.way_to(place, goal)
        cells = [self.put(place, "c", f"{16 * port}/15", mark, last) for last in (False, True)]
        text = f"packet {self.address(place)} > {self.address(goal)} protocol 17 ttl 9 octets 60"
        return [{"mark": mark, "text": text}], cells

    def send(self):
        place, goal = self.any_place(), self.any_place()
        self.packets += 1
        words = f"send {self.name(place)} 4500003c"
        if place == goal:
            self.event(words, says=[f"deliver {self.name(place)} {self.packets} 4500003c"])
            return
        self.goals[self.packets] = goal
        frames, cells = self.frame_to(place, goal, f"{self.packets}.1")
        self.event(words, frames=frames, put=cells)

    def take(self, word):
        """Takes the first cell of some queue, and says where it stood."""
        at = self.random.randrange(len(self.busy))
        place, end = self.busy[at]
        cells = self.queues[f"{self.name(place)}:{end}"]
        cell = cells.popleft()
        if not cells:
            self.busy[at] = self.busy[-1]
            self.busy.pop()
        return place, end, cell, f"{word} {cell['queue']}"

    def carry(self):
        place, end, cell, words = self.take("carry")
        mark, last = cell["mark"], cell["last"]
        if end == "c" and cell["channel"] == "0/15":
            self.event(words, cell)
        elif end == "c":
            port = int(cell["channel"].split("/")[0]) // 16
            self.event(words, cell, put=[self.put(place, port, "0/15", mark, last)])
        elif end == 0:
            self.arrive(place, cell, words)
        else:
            channel = f"{16 * OPPOSITE[end]}/15"
            self.event(words, cell, put=[self.put(self.neighbour(place, end), 0, channel, mark, last)])

    def arrive(self, place, cell, words):
        packet, hop = map(int, cell["mark"].split("."))
        if not cell["last"]:
            self.event(words, cell)
        elif self.goals[packet] == place:
            self.event(words, cell, says=[f"deliver {self.name(place)} {packet} 4500003c"])
        else:
            frames, cells = self.frame_to(place, self.goals[packet], f"{packet}.{hop + 1}")
            self.event(words, cell, frames, cells)

    def lose(self):
        _, _, cell, words = self.take("lose")
        self.event(words, cell, says=[f"loss {cell['mark']} Lost"])

    def bind_or_free(self, place):
        name, vci = self.name(place), self.random.randint(32, 39)
        port = self.random.choice([port for port in STEPS if self.neighbour(place, port)])
        label = f"{name} {port} {vci}"
        if label not in self.labels:
            hosts = [ipaddress.ip_address(self.address(self.any_place())).packed.hex() for _ in range(2)]
            self.labels[label] = place
            return [f"bind {label} {FLOW.format(*hosts, vci)}"]
        if label in self.joins:
            self.joins.remove(label)
            return [f"part {label}"]
        if self.random.random() < 0.5:
            self.joins.add(label)
            onward = self.random.choice([out for out in STEPS if out != port and self.neighbour(place, out)])
            return [f"join {label} {onward} 32"]
        del self.labels[label]
        return [f"free {label}"]

    def tick(self):
        place = self.any_place()
        self.messages += 1
        mark = f"0.{self.messages}"
        frame = {"mark": mark, "text": "adjacency ack sender 020000000001 0 1 receiver 020000000101 0 2"}
        cell = self.put(place, "c", "0/15", mark, True)
        self.event(f"tick {self.name(place)}", frames=[frame], put=[cell], says=self.bind_or_free(place))

    def some_event(self):
        chance = self.random.random()
        if not self.busy or chance < 0.04:
            self.send()
        elif chance < 0.07:
            self.tick()
        elif chance < 0.075:
            self.lose()
        else:
            self.carry()

    def end(self):
        counts = self.counts
        self.write({"end": f"end events {self.number} sent {self.packets} delivered {counts['deliver']} dropped 0 "
                           f"refused 0 losses {counts['loss']} redirects 0 switched 0 chance 0"})


def write_journal(path, events):
    """Writes a journal of so many lines of events, and gives what it counted."""
    with open(path, "w", encoding="ascii") as out:
        made = MadeUp(out)
        made.head()
        for _ in range(events):
            made.some_event()
        made.end()
    return made
