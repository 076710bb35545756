#!/usr/bin/env python3
"""What is said of texts and bytes that were changed at random: python3 tests/mutated.py FLEET [COUNT [SEED]].

Each of the COUNT (10,000) cases changes a map, a scenario, a plan, holds, the bytes of a program or hexadecimal text in
one to three places, and compares all that the program answers with what a plain reader of these formats answers here.
Status 1 if an answer differs, or if one of REFUSALS never came.
"""
import os
import random
import re
import subprocess
import sys
import tempfile

REFUSALS = """map 2 Header, map 3 Size, map 4 RowCount, map 5 RowLength, map 6 Glyph, map 7 Trailing, scen 2 Version,
scen 3 Fields, scen 4 Number, scen 5 OtherMap, scen 6 Blocked, scen 7 SharedStart, scen 8 SharedGoal, scen 9 NoAgents,
text 2 Form, text 4 AgentCount, check 2 Agents, check 3 Start, check 4 Goal, check 5 Step, check 6 Conflict Vertex,
check 6 Conflict Swapping, check 6 Conflict Cycle, run 3 Hold, load 2 Magic, load 3 Truncated, load 4 AgentCount,
load 5 Total, load 6 Opcode, load 7 AwaitAgent, load 8 AwaitOrder, load 9 AwaitCount, load 10 Trailing, hex 2 Digit,
hex 3 Odd""".replace("\n", " ").split(", ")
STEPS = [(0, -1), (1, 0), (0, 1), (-1, 0), (0, 0)]


class Refused(Exception):
    """The line of a refusal."""


def lines_of(text):
    lines = text.split(b"\n")
    return [line[:-1] if line.endswith(b"\r") else line for line in (lines if lines[-1] else lines[:-1])]


def number(word):
    """The number up to 65,535 that the word is, or None."""
    return int(word) if re.fullmatch(rb"[0-9]+", word) and int(word) < 65536 else None


def read_map(text):
    """The sizes of the map, and its passable cells."""
    lines, sizes = lines_of(text), []
    for n, form in enumerate((rb"type[ \t]+[^ \t]+[ \t]*", rb"height[ \t]+([0-9]+)[ \t]*", rb"width[ \t]+([0-9]+)[ \t]*",
                              rb"map[ \t]*")):
        found = re.fullmatch(form, lines[n]) if n < len(lines) else None
        if not found:
            raise Refused("map 2 Header line %d" % (n + 1))
        sizes += map(int, found.groups())
    height, width = sizes
    if not (1 <= height <= 4096 and 1 <= width <= 4096):
        raise Refused("map 3 Size")
    for y in range(height):
        if y + 4 >= len(lines):
            raise Refused("map 4 RowCount")
        row = lines[y + 4]
        if len(row) != width:
            raise Refused("map 5 RowLength row %d" % y)
        for x, glyph in enumerate(row):
            if glyph not in b".GS@OTW":
                raise Refused("map 6 Glyph row %d column %d" % (y, x))
    if b"".join(lines[height + 4:]).strip(b" \t\r"):
        raise Refused("map 7 Trailing")
    return width, height, {(x, y) for y in range(height) for x in range(width) if lines[y + 4][x] in b".GS"}


def read_scen(text, ground):
    """The start and the goal of each agent."""
    width, height, free = ground
    lines = [(n, re.split(rb"[ \t]+", line.strip(b" \t"))) for n, line in enumerate(lines_of(text), 1) if line.strip(b" \t")]
    if not lines or lines[0][1] not in ([b"version", b"1"], [b"version", b"1.0"]):
        raise Refused("scen 2 Version")
    tasks = []
    for n, words in lines[1:]:
        if len(words) != 9:
            raise Refused("scen 3 Fields line %d" % n)
        numbers = [number(word) for word in words[2:8]]
        if None in numbers:
            raise Refused("scen 4 Number line %d field %d" % (n, numbers.index(None) + 3))
        start, goal = tuple(numbers[2:4]), tuple(numbers[4:])
        for kind, wrong in (("5 OtherMap", numbers[:2] != [width, height]), ("6 Blocked", not {start, goal} <= free),
                            ("7 SharedStart", start in [task[0] for task in tasks]),
                            ("8 SharedGoal", goal in [task[1] for task in tasks])):
            if wrong:
                raise Refused("scen %s line %d" % (kind, n))
        tasks.append((start, goal))
    if not tasks:
        raise Refused("scen 9 NoAgents")
    return tasks


def read_plan(text):
    plan = []
    for n, line in enumerate(lines_of(text), 1):
        cells = [tuple(map(number, cell.split(b","))) for cell in re.split(rb"[ \t]+", line.rstrip(b" \t"))]
        if any(len(cell) != 2 or None in cell for cell in cells):
            raise Refused("text 2 Form line %d" % n)
        plan.append(cells)
    if not plan:
        raise Refused("text 4 AgentCount")
    return plan


def conflict(plan, t):
    """The first conflict at time t, or in the step from there."""
    now, then = ([path[min(s, len(path) - 1)] for path in plan] for s in (t, t + 1))
    pairs = [(i, j) for i in range(len(plan)) for j in range(i + 1, len(plan))]
    met = [(kind, pair) for kind, pair in [("Vertex", (i, j)) for i, j in pairs if now[i] == now[j]]
           + [("Swapping", (i, j)) for i, j in pairs if now[i] != now[j] and (then[i], then[j]) == (now[j], now[i])]]
    if met:
        return "%s time %d i %d j %d" % (met[0][0], t, *met[0][1])
    for least in range(len(plan)):
        ring = [least]
        while then[ring[-1]] != now[ring[-1]] and then[ring[-1]] in now and now.index(then[ring[-1]]) not in ring:
            ring.append(now.index(then[ring[-1]]))
        if len(ring) > 2 and then[ring[-1]] == now[least]:
            return "Cycle time %d least %d" % (t, least)
    return None


def check(text, ground, tasks):
    plan = read_plan(text)
    if len(plan) != len(tasks):
        raise Refused("check 2 Agents")
    for kind, wrong in (("3 Start", lambda path, task: path[0] != task[0]), ("4 Goal", lambda path, task: path[-1] != task[1])):
        for i, path in enumerate(plan):
            if wrong(path, tasks[i]):
                raise Refused("check %s agent %d" % (kind, i))
    for i, path in enumerate(plan):
        for t, (x, y) in enumerate(path):
            if (x, y) not in ground[2] or (path[max(t - 1, 0)][0] - x, path[max(t - 1, 0)][1] - y) not in STEPS:
                raise Refused("check 5 Step agent %d time %d" % (i, t))
    steps = max(map(len, plan)) - 1
    for t in range(steps + 1):
        if conflict(plan, t):
            raise Refused("check 6 Conflict " + conflict(plan, t))
    return "conflict-free\nagents %d\nsteps %d\n" % (len(plan), steps)


def read_program(data):
    """Of each agent its start, its goal, and its actions: a step and its awaits."""
    at, total, program = 4, 0, []

    def take(size):
        nonlocal at
        if at + size > len(data):
            raise Refused("load 3 Truncated")
        at += size
        return int.from_bytes(data[at - size:at], "big")
    if data[:4] not in (b"MPF1", b"MPF2"):
        raise Refused("load 3 Truncated" if b"MPF".startswith(data[:4]) else "load 2 Magic")
    size = 2 * (data[3] - 48)
    agents = take(2)
    if not 1 <= agents <= 1024:
        raise Refused("load 4 AgentCount")
    for i in range(agents):
        ends, count, actions = [take(2) for _ in range(4)], take(size), []
        total += count
        if count > 1000000 or total > 4194304:
            raise Refused("load 5 Total")
        for _ in range(count):
            awaits, begin, code = [], at, take(1)
            while code == 16:
                j = take(2)
                if j == i or j >= agents:
                    raise Refused("load 7 AwaitAgent at %d" % begin)
                if awaits and j <= awaits[-1][0]:
                    raise Refused("load 8 AwaitOrder at %d" % begin)
                awaits.append((j, take(size)))
                if not awaits[-1][1]:
                    raise Refused("load 9 AwaitCount at %d" % begin)
                begin, code = at, take(1)
            if code > 2 + size // 2:
                raise Refused("load 6 Opcode at %d" % begin)
            actions.append((STEPS[code], awaits))
        program.append((ends, actions))
    if at < len(data):
        raise Refused("load 10 Trailing at %d" % at)
    return program


def version2(program):
    data = b"MPF2" + len(program).to_bytes(2, "big")
    for ends, actions in program:
        data += b"".join(n.to_bytes(2, "big") for n in ends) + len(actions).to_bytes(4, "big")
        for step, awaits in actions:
            data += b"".join(b"\x10" + j.to_bytes(2, "big") + n.to_bytes(4, "big") for j, n in awaits)
            data += bytes([STEPS.index(step)])
    return data


def holds_at(lines, t, agents):
    """Who is held in the tick after time t."""
    if t >= len(lines) or lines[t] == b"-":
        return []
    held = [number(word) if word == b"0" or word[:1] != b"0" else None for word in lines[t].split(b" ")]
    if None in held or any(i >= agents for i in held) or any(i >= j for i, j in zip(held, held[1:])):
        raise Refused("run 3 Hold line %d" % (t + 1))
    return held


def rehearse(program, lines):
    """What is printed, the line of the refusal, and the status."""
    done, ticks, waited, said = [0] * len(program), 0, 0, ""
    while True:
        places = [(ends[0] + sum(step[0] for step, _ in actions[:n]), ends[1] + sum(step[1] for step, _ in actions[:n]))
                  for (ends, actions), n in zip(program, done)]
        said += "%d: %s\n" % (ticks, " ".join("%d,%d" % place for place in places))
        ready = [i for i, (_, actions) in enumerate(program)
                 if done[i] < len(actions) and all(done[j] >= count for j, count in actions[done[i]][1])]
        if not ready:
            is_stuck = any(n < len(actions) for (_, actions), n in zip(program, done))
            said += "agents %d\nticks %d\nheld %d\n" % (len(program), ticks, waited)
            return said + ("stuck\n" if is_stuck else "finished\n"), "", int(is_stuck)
        try:
            held = holds_at(lines, ticks, len(program))
        except Refused as fault:
            return said, "%s\n" % fault, 1
        ticks += 1
        waited += any(i in held for i in ready)
        done = [n + (i in ready and i not in held) for i, n in enumerate(done)]


def read_hex(text):
    for at, byte in enumerate(text):
        if byte not in b"0123456789abcdefABCDEF \t\r\n":
            raise Refused("hex 2 Digit at %d" % at)
    digits = bytes(byte for byte in text if byte not in b" \t\r\n")
    if len(digits) % 2:
        raise Refused("hex 3 Odd")
    return bytes.fromhex(digits.decode())


MAP = b"type octile\nheight 3\nwidth 4\nmap\n....\n.@.G\nS...\n"
SCEN = b"version 1\n0\tm\t4\t3\t0\t0\t2\t0\t2.5\n0\tm\t4\t3\t1\t0\t3\t1\t3.5\n0\tm\t4\t3\t0\t1\t0\t0\t1\n"
SQUARE = b"version 1\n0 m 4 3 2 0 3 0 1\n0 m 4 3 3 0 3 1 1\n0 m 4 3 3 1 2 1 1\n0 m 4 3 2 1 2 0 1\n"
PLANS = [(SCEN, b"0,0 1,0 2,0 2,0\n1,0 2,0 3,0 3,1\n0,1 0,0\n"),
         (SCEN, b"0,0 1,0 0,0 1,0 2,0\n1,0 2,0 3,0 3,1\n0,1 0,1 0,2 0,1 0,0\n"),
         (SCEN, b"0,0 0,1 0,0 1,0 2,0\n1,0 2,0 3,0 3,1\n0,1 0,0\n"),
         (SQUARE, b"2,0 3,0\n3,0 3,0 3,1\n3,1 2,1\n2,1 2,1 2,0\n"),
         (SQUARE, b"2,0 2,0 3,0\n3,0 3,0 3,1\n3,1 3,1 2,1\n2,1 2,0\n"),
         (SQUARE, b"2,0 3,0\n3,0 3,1\n3,1 2,1\n2,1 2,0\n")]
HOLDS = b"0\n-\n0 1\n1\n"
HEX = (b"4D504631 0003\n0002 0000 0004 0000 0002 01 01\n0001 0000 0003 0000 0002 10 0000 0001 01 10 0000 0002 01\n"
       b"0000 0000 0002 0000 0003 10 0001 0001 01 10 0000 0001 10 0001 0002 03 02\n")
STAYING = [([1, 0, 1, 1], [((0, 0), [(1, 1)]), ((0, 1), [])]), ([3, 0, 3, 0], [((0, 0), [])])]
PROGRAMS = [read_hex(HEX), version2(read_program(read_hex(HEX))), version2(STAYING)]
# What is put into a text, into the bytes of a program, and in place of a number, a glyph or a word.
TEXTS = [b"", b"", b"\n", b"\r\n", b"\n\r\r\n", b"\r", b" ", b"\t", b"0", b"1", b"2", b"3", b"65536", b"4097", b",", b"-",
         b"x", b"@", b"..\n", b"1,0", b"2,0 ", b"version", b"0 1 2\n", b"10"]
CODES = [b"", b"", b"\0", b"\1", b"\2", b"\4", b"\5", b"\x10", b"\x10\0\0\0\1", b"\x10\0\1\0\1", b"\x10\0\0\0\0\0\1", b"\xff",
         b"\0\x0f\x42\x41", b"MPF2", b"\4\1"]
WAYS = {"number": (rb"[0-9]+", [b"0", b"1", b"2", b"3", b"4", b"01", b"4097", b"65535", b"65536"]),
        "glyph": (rb"[.@]", [b"T", b"G", b"x"]), "word": (rb"\S+ ?", [b"", b"\\g<0> \\g<0>"])}


def change(rng, text, pieces):
    """The text with one to three changes: of some bytes, of lines, of a number, a glyph or a word, or it is cut."""
    for _ in range(rng.choice([1, 1, 2, 3])):
        begin = rng.randrange(len(text) + 1)
        end = min(len(text), begin + rng.choice([0, 1, 1, 2, 5]))
        piece = rng.choice([rng.choice(pieces), bytes([rng.randrange(256)]), text[begin:end] * 2])
        way = rng.choice(["bytes", "lines", "cut"] if pieces is CODES else ["bytes", "lines", "cut", "number", *WAYS])
        if way in ("lines", "cut"):
            begin, end = text.rfind(b"\n", 0, begin) + 1, text.find(b"\n", begin) + 1 or len(text)
            piece, end = (b"", len(text)) if way == "cut" else (text[begin:end] * rng.choice([0, 2]), end)
        elif way in WAYS:
            form, others = WAYS[way]
            found = rng.choice(list(re.finditer(form, text)) or [re.match(b"", text)])
            begin, end, piece = *found.span(), found.expand(rng.choice(others))
        text = text[:begin] + piece + text[end:]
    return text


def due_of(kind, texts):
    """What is printed, the line of the refusal, the status, and the bytes of OUT."""
    try:
        if kind == "holds":
            return (*rehearse(read_program(texts["program"]), lines_of(texts["holds"])), None)
        if kind == "hex":
            return (*rehearse(read_program(read_hex(texts["hex"])), []), None)
        if kind == "program":
            out = version2(read_program(texts["program"]))
            return "bytes %d\n" % len(out), "", 0, out
        ground = read_map(texts["map"])
        tasks = read_scen(texts["scen"], ground)
        if kind == "plan":
            return check(texts["plan"], ground, tasks), "", 0, None
        agents = "".join("%d: %d,%d %d,%d\n" % (i, *start, *goal) for i, (start, goal) in enumerate(tasks))
        return "map %d %d\nground %d\nagents %d\n%s" % (*ground[:2], len(ground[2]), len(tasks), agents), "", 0, None
    except Refused as fault:
        return "", "%s\n" % fault, 1, None


def case(rng, fleet):
    """What differs, and the refusal, if there was one."""
    kind = rng.choice(["map", "map", "scen", "scen", "plan", "plan", "holds", "program", "program", "hex"])
    scen, plan = rng.choice(PLANS)
    texts = {"map": MAP, "scen": scen, "plan": plan, "holds": HOLDS, "program": rng.choice(PROGRAMS), "hex": HEX, "out": b"old"}
    texts[kind] = change(rng, texts[kind], CODES if kind == "program" else TEXTS)
    words = {"map": ["instance", "map", "scen"], "scen": ["instance", "map", "scen"], "plan": ["check", "map", "scen", "plan"],
             "holds": ["rehearse", "program", "--holds", "holds"], "program": ["migrate", "program", "out"], "hex": []}[kind]
    for name in set(words) & set(texts):
        with open(name, "wb") as file:
            file.write(texts[name])
    ran = subprocess.run([fleet, *words], input=texts["hex"], capture_output=True, timeout=60)
    due = due_of(kind, texts)
    out = open("out", "rb").read() if "out" in words else b"old"
    got = ran.stdout.decode(), ran.stderr.decode(), ran.returncode, None if out == b"old" else out
    return None if got == due else "%s: %s\n  %s\n  due %s" % (kind, texts[kind], got, due), due[1]


def main(fleet, count="10000", seed="1"):
    fleet, rng, seen = os.path.abspath(fleet), random.Random(int(seed)), set()
    with tempfile.TemporaryDirectory() as room:
        os.chdir(room)
        for k in range(int(count)):
            wrong, refusal = case(rng, fleet)
            if wrong:
                sys.exit("case %d: %s" % (k, wrong))
            seen |= {name for name in REFUSALS if refusal.startswith(name)}
        os.chdir("/")
    lacking = [name for name in REFUSALS if name not in seen]
    if lacking:
        sys.exit("mutated: never refused: " + ", ".join(lacking))
    print("mutated:", count, "cases compared,", len(seen), "refusals")


if __name__ == "__main__":
    main(*sys.argv[1:])
