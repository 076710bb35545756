#!/usr/bin/env python3
"""A gateway from `fleet dispatch` to vehicles that speak VDA 5050 (version 2), with simulated vehicles:

    python3 examples/vda5050.py MAP SCEN PROGRAM [SEED]

The program of `fleet list` becomes one order for each vehicle. Action A:n leads vehicle A to the node with sequenceId
2n; what is ordered so far is its base, the next nodes its horizon, and each order of `fleet` an order update with a
longer base. The state of a vehicle says by lastNodeSequenceId which actions it has carried out. Messages are JSON, over a
transport in place of MQTT that repeats, delays, loses and reorders them: what counts is the greatest number that came,
and both sides say theirs again and again. FLEET is the program, if it is not `fleet`.
"""
import json
import os
import queue
import random
import subprocess
import sys
import threading
import time

FLEET = os.environ.get("FLEET", "fleet")
METRES = 1.0  # from cell to cell
HORIZON = 8  # how many nodes behind its base a vehicle is told


class Transport:
    """Messages that are on their way. A third is lost, a third comes twice, and each takes up to 20 turns."""

    def __init__(self, seed):
        self.random, self.now, self.flying = random.Random(seed), 0, []

    def send(self, topic, message):
        for _ in range(self.random.choice([0, 1, 2])):
            self.flying.append((self.now + self.random.randint(1, 20), topic, json.dumps(message)))

    def turn(self):
        """What comes in this turn."""
        self.now += 1
        come = [one for one in self.flying if one[0] <= self.now]
        self.flying = [one for one in self.flying if one[0] > self.now]
        return [(topic, json.loads(message)) for _, topic, message in come]


class Gateway:
    """One vehicle as the gateway sees it: its way, how far it may go, and how far it said that it is."""

    def __init__(self, agent, cells):
        self.agent, self.cells = agent, cells
        self.released = self.done = self.known = 0

    def node(self, n):
        x, y = self.cells[n]
        return {"nodeId": f"{x},{y}", "sequenceId": 2 * n, "released": n <= self.released, "actions": [],
                "nodePosition": {"x": METRES * x, "y": METRES * y, "mapId": "map"}}

    def edge(self, n):
        (a, b), (c, d) = self.cells[n], self.cells[n + 1]
        return {"edgeId": f"{a},{b} {c},{d}", "sequenceId": 2 * n + 1, "released": n < self.released, "actions": [],
                "startNodeId": f"{a},{b}", "endNodeId": f"{c},{d}"}

    def order(self):
        """The order from the node at which the vehicle was last seen: base and horizon."""
        rest = range(self.done, min(self.released + HORIZON + 1, len(self.cells)))
        return {"version": "2.0.0", "serialNumber": str(self.agent), "orderId": "program",
                "orderUpdateId": self.released, "nodes": [self.node(n) for n in rest],
                "edges": [self.edge(n) for n in rest[:-1]]}

    def take(self, state):
        """The actions that the state says are carried out and no state said before."""
        self.known = max(self.known, state["orderUpdateId"])
        new = range(self.done + 1, state["lastNodeSequenceId"] // 2 + 1)
        self.done = max(self.done, state["lastNodeSequenceId"] // 2)
        return new


class Vehicle:
    """A simulated vehicle: it goes to the end of its base, each edge in some turns, and tells its state."""

    def __init__(self, agent, cell, pace):
        self.agent, self.pace, self.way = agent, pace, {0: cell}
        self.update = self.last = self.base = self.turns = 0

    def take(self, order):
        first = order["nodes"][0]["sequenceId"] // 2
        if order["orderUpdateId"] <= self.update or first > self.base:
            return  # an older one, or one that does not join on to what is known
        for node in order["nodes"]:
            n = node["sequenceId"] // 2
            self.way[n] = tuple(int(part) for part in node["nodeId"].split(","))
            if node["released"]:
                self.base = max(self.base, n)
        self.update = order["orderUpdateId"]

    def turn(self):
        if self.last < self.base:
            self.turns += 1
            if self.turns == self.pace:
                self.last, self.turns = self.last + 1, 0

    def cells(self):
        """The cells that it is on: also the next one, once it is on its way."""
        return {self.way[self.last]} | ({self.way[self.last + 1]} if self.turns else set())

    def state(self):
        return {"version": "2.0.0", "serialNumber": str(self.agent), "orderId": "program", "orderUpdateId": self.update,
                "lastNodeId": "%d,%d" % self.way[self.last], "lastNodeSequenceId": 2 * self.last,
                "driving": self.turns > 0, "errors": []}


def cell(word):
    x, y = word.split(",")
    return int(x), int(y)


def ways(program):
    """The cells of each agent, by the listing of the program."""
    found = []
    listed = subprocess.run([FLEET, "list", program], capture_output=True, text=True, check=True).stdout
    for line in listed.splitlines():
        words = line.split()
        if words[0] == "agent":
            found.append([cell(words[2])])
        else:
            found[-1].append(cell(words[3]))
    return found


def main():
    if len(sys.argv) not in (4, 5):
        sys.exit(__doc__)
    paths = ways(sys.argv[3])
    seed = int(sys.argv[4]) if len(sys.argv) > 4 else 1
    net, pace = Transport(seed), random.Random(seed)
    sides = [Gateway(i, cells) for i, cells in enumerate(paths)]
    vehicles = [Vehicle(i, cells[0], pace.randint(1, 6)) for i, cells in enumerate(paths)]
    fleet = subprocess.Popen([FLEET, "dispatch", *sys.argv[1:4]],
                             stdin=subprocess.PIPE, stdout=subprocess.PIPE, text=True)
    said = queue.Queue()
    threading.Thread(target=lambda: [said.put(line) for line in fleet.stdout] + [said.put(None)], daemon=True).start()
    numbered = False  # whether orders, and so reports, name the action
    while True:
        while not said.empty():
            line = said.get()
            if line is None:
                sys.exit(fleet.wait())
            words = line.split()
            if words[0] != "go":
                print(line, end="", flush=True)
                continue
            numbered = ":" in words[1]
            side = sides[int(words[1].split(":")[0])]
            side.released += 1
            assert side.cells[side.released] == cell(words[-1])
            net.send("order", side.order())
        for topic, message in net.turn():
            i = int(message["serialNumber"])
            if topic == "order":
                vehicles[i].take(message)
            else:
                for n in sides[i].take(message):
                    fleet.stdin.write(f"{i}:{n}\n" if numbered else f"{i}\n")
                    fleet.stdin.flush()
        for i, vehicle in enumerate(vehicles):
            vehicle.turn()
            if net.random.random() < 0.2:
                net.send("state", vehicle.state())
            if sides[i].known < sides[i].released and net.random.random() < 0.1:
                net.send("order", sides[i].order())
        taken = [place for vehicle in vehicles for place in vehicle.cells()]
        assert len(taken) == len(set(taken)), "two vehicles on one cell"
        time.sleep(0.0005)


if __name__ == "__main__":
    main()
