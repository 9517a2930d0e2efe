#!/usr/bin/env python3
"""Judges plans and certificates a second time, by a program that shares no code with ttplan:

    tools/second_check.py verify INSTANCE PLAN     writes `valid D`
    tools/second_check.py check INSTANCE CERT      writes `bound LOW`
    tools/second_check.py judge INSTANCE PLAN CERT writes `least D`, `none` or `between LOW BEST`
    tools/second_check.py join INSTANCE CERT CERT.. [--cert FILE]
                                                   writes `bound LOW`, and to FILE the certificates' joined one
    tools/second_check.py schedule INSTANCE PLAN [--table processes|slots|messages]
                                                   writes the table
    tools/second_check.py draw INSTANCE PLAN [--width PX] [--used]
                                                   writes the picture
    tools/second_check.py tables INSTANCE PLAN [--rounds N]
                                                   writes the node tables and the guardian windows
    tools/second_check.py period INSTANCE PLAN PERIOD
                                                   writes how the plan's rounds lie in a period
    tools/second_check.py replay INSTANCE PLAN [LOSS]...
                                                   writes what membership does
    tools/second_check.py compare OLD_INSTANCE OLD_PLAN NEW_INSTANCE NEW_PLAN
                                                   writes what is different
    tools/second_check.py limit INSTANCE ANSWER CERT [--reduced FILE] PROCESS..
                                                   writes the first line of ANSWER, which `ttplan limit INSTANCE PROCESS..` printed
                                                   with CERT as its certificate, where the two show what they have to, and FILE
                                                   states the instance that it is for
    tools/second_check.py margin INSTANCE ANSWER CERT [--reduced FILE] [--permille] [--within D] [PROCESS]..
                                                   writes the first line of ANSWER, which `ttplan margin INSTANCE ..` printed with these
                                                   words beside CERT and FILE, where they show what they have to
    tools/second_check.py why INSTANCE [OPTION]..  asks `ttplan why` with these words, and writes what that says once it is judged
    tools/second_check.py unroll RATES             writes the instance of a cluster with several periods
    tools/second_check.py repeat RATES [PLAN]      writes how that repeats, and what its plan means in all cycles
    tools/second_check.py age RATES ANSWER CERT [--reduced FILE] CHAIN
                                                   writes the first line of ANSWER, which `ttplan age RATES CHAIN` printed beside CERT and
                                                   FILE, where they show what they have to

Anything else is told in one line on standard error, with the words and the statuses of `ttplan verify`, `check`, `judge`,
`join`, `schedule`, `draw`, `tables`, `period`, `replay`, `compare`, `unroll` and `repeat`. A plan of a cluster with several periods is judged for
`repeat` by its unrolled instance, and once more by the jobs of six cycles: where the two differ the line is `repeat wrong`, with what is,
and the status 1.
It was written from docs/FORMATS.md and docs/CERTIFICATES.md alone, but for the elements and colours of a picture, which stand in
crates/plan_sheets/specs, and is proved in no way: where it and ttplan differ, a
document is wrong, or one of the two programs is.

It looks for nothing by itself. So why there is no plan is asked of ttplan: the instance by the constraints that are told has to be the
one that was written, its certificate has to prove that it has no plan, and for each `need`, left out too, ttplan has to find a plan,
which is judged here. An answer that isn't so is told as `why wrong`, with what is, and status 1.

Two things may differ: which circle of processes is told (M13), where there are several, and what Python's reader of TOML
1.0 takes for no TOML (T1): new lines and a last comma in inline tables, `\\e` and `\\x41` in strings, times without seconds,
a second 60 and the year 0."""

import codecs
import contextlib
import copy
import functools
import itertools
import json
import math
import os
import pathlib
import re
import subprocess
import sys
import tempfile
import tomllib
from dataclasses import dataclass, replace

INSTANCE_BYTES, PLAN_BYTES, CERTIFICATE_BYTES = 8_388_608, 131_072, 268_435_456
PRINTED_BYTES = PLAN_BYTES + len("stopped budget 4294967295 4294967295\n")
NUMBER_MOST = 4_294_967_295
TICKS_MOST = 1_000_000
NESTING_MOST = 80  # of brackets in brackets, and of a key's parts
BRANCHES_MOST = 43_456
CHANNELS_MOST = 2
CHANNEL_WORDS = b"0", b"1", b"both"
BOTH = CHANNEL_WORDS.index(b"both")
NAME = re.compile(rb"[A-Za-z_][A-Za-z0-9_]{0,31}")
NUMBER = re.compile(rb"0|[1-9][0-9]*")
QUOTED = re.compile(
    r"""\"{3}(?:\\.|[^\\])*?(?:\"{3,5}|\Z)|'{3}.*?(?:'{3,5}|\Z)|"(?:\\.|[^"\\\n])*"?|'[^'\n]*'?|\#[^\n]*""", re.DOTALL)
LONG_KEY = re.compile(r"(?<![\w-])(?:[\w-]+[ \t]*\.[ \t]*){%d}" % NESTING_MOST)


class Refused(Exception):
    """The exit status and the line that tells why."""

    def __init__(self, status, *words):
        self.status = status
        self.line = " ".join(str(word) for word in words)


# The instance: its text


CLUSTER_KEYS = ("precision", "lead", "trail", "head", "per_byte", "copy_out", "copy_in", "horizon")


@dataclass
class Node:
    name: str
    capacities: list


@dataclass
class Process:
    name: str
    node: int
    wcet: int
    release: int
    deadline: int


@dataclass
class Link:
    before: int
    after: int


@dataclass
class Message:
    name: str
    sender: int
    to: list
    bytes: int
    both: bool


class Table:
    """A table of the text at its place. Its keys are asked for in the order in which they are judged."""

    def __init__(self, members, place, keys, text="instance"):
        self.members, self.place, self.text = members, place, text
        if set(members) - set(keys):
            raise self.fault("T2", place)

    def fault(self, code, *words):
        return Refused(3, self.text, code, *words)

    def value(self, key, kind, missing=None):
        if key not in self.members:
            if missing is None:
                raise self.fault("T3", self.place, key)
            return missing
        return self.of_kind(key, self.members[key], kind)

    def of_kind(self, key, value, kind):
        # A truth value is an int to Python, and a date-time is a date.
        if type(value) is not kind:
            raise self.fault("T4", self.place, key)
        if kind is int and not 0 <= value <= NUMBER_MOST:
            raise self.fault("T5", self.place, key)
        return value

    def items(self, key, kind, missing=None):
        for item in self.value(key, list, missing):
            yield self.of_kind(key, item, kind)

    def number(self, key, missing=None):
        return self.value(key, int, missing)

    def named(self, key, name, indices):
        if name not in indices:
            raise self.fault("T6", self.place, key)
        return indices[name]

    def index(self, key, indices):
        return self.named(key, self.value(key, str), indices)


def indices_of(things):
    """The index of each name; a name that stands twice means the first that has it."""
    return {thing.name: k for k, thing in reversed(list(enumerate(things)))}


def is_too_deep(text):
    """Whether brackets stand too deep in one another, or a key has too many parts, in a text that is TOML."""
    bare = QUOTED.sub("q", text)
    if LONG_KEY.search(bare):
        return True
    depth = 0
    for bracket in re.findall(r"[][{}]", bare):
        depth += 1 if bracket in "[{" else -1
        if depth > NESTING_MOST:
            return True
    return False


def finite(digits):
    number = float(digits)
    if math.isinf(number) and "inf" not in digits:
        raise ValueError("a number that is too great")
    return number


def holds_long_number(value):
    """Whether a whole number stands in the value that is beyond 64 bits."""
    left = [value]
    while left:
        value = left.pop()
        if type(value) is int and not -(2**63) <= value < 2**63:
            return True
        if isinstance(value, (dict, list)):
            left += value.values() if isinstance(value, dict) else value
    return False


def parse(text, what="instance"):
    """The text as a table."""
    try:
        text = text.removeprefix(codecs.BOM_UTF8).decode("utf-8")
        # Python's reader isn't asked to read what is too deep for it.
        top = None if is_too_deep(text) else tomllib.loads(text, parse_float=finite)
    except ValueError as fault:
        raise Refused(3, f"{what} T1") from fault
    if top is None or holds_long_number(top):
        raise Refused(3, f"{what} T1")
    return top


class Instance:
    """The instance that a text states, or the first thing that is wrong with it."""

    def __init__(self, text):
        if len(text) > INSTANCE_BYTES:
            raise Refused(6, "read instance")
        top = Table(parse(text), "top", ("cluster", "node", "process", "link", "message"))
        cluster = top.value("cluster", dict)
        lists = {key: list(top.items(key, dict, missing)) for key, missing in
                 (("node", None), ("process", None), ("link", []), ("message", []))}
        cluster = Table(cluster, "cluster", (*CLUSTER_KEYS, "channels"))
        self.set_cluster({key: cluster.number(key) for key in CLUSTER_KEYS} | {"channels": cluster.number("channels", 1)})
        self.nodes, self.processes, self.links, self.messages = [], [], [], []
        for k, members in enumerate(lists["node"]):
            table = Table(members, f"node {k}", ("name", "capacities"))
            self.nodes.append(Node(table.value("name", str), list(table.items("capacities", int))))
        nodes = indices_of(self.nodes)
        for k, members in enumerate(lists["process"]):
            table = Table(members, f"process {k}", ("name", "node", "wcet", "release", "deadline"))
            self.processes.append(Process(
                table.value("name", str), table.index("node", nodes), table.number("wcet"),
                table.number("release", 0), table.number("deadline", TICKS_MOST)))
        processes = indices_of(self.processes)
        for k, members in enumerate(lists["link"]):
            table = Table(members, f"link {k}", ("from", "to"))
            self.links.append(Link(table.index("from", processes), table.index("to", processes)))
        for k, members in enumerate(lists["message"]):
            table = Table(members, f"message {k}", ("name", "from", "to", "bytes", "both"))
            self.messages.append(Message(
                table.value("name", str), table.index("from", processes),
                [table.named("to", name, processes) for name in table.items("to", str)], table.number("bytes"),
                table.value("both", bool, False)))
        for code, place in self.faults():
            raise Refused(3, f"instance {code}", *place)
        self.settle()

    @classmethod
    def of(cls, cluster, nodes, processes, links, messages):
        """The instance of these parts, not judged yet."""
        made = cls.__new__(cls)
        made.set_cluster(cluster)
        made.nodes, made.processes, made.links, made.messages = nodes, processes, links, messages
        return made

    def set_cluster(self, cluster):
        self.cluster = cluster
        # The cluster's numbers are the instance's own, as in instance.head.
        self.__dict__.update(cluster)

    def settle(self):
        """Keeps what is asked for often of an instance without a fault."""
        self.by_node = [[p for p, process in enumerate(self.processes) if process.node == n]
                        for n in range(len(self.nodes))]
        self.sent_by = [[m for m in range(len(self.messages)) if self.sender_node(m) == n]
                        for n in range(len(self.nodes))]
        self.sent_to = [[m for m, message in enumerate(self.messages) if p in message.to]
                        for p in range(len(self.processes))]
        self.linked = {(link.before, link.after) for link in self.links}
        self.waits = self.linked | {(message.sender, q) for message in self.messages for q in message.to}

    def sender_node(self, m):
        return self.processes[self.messages[m].sender].node

    def duration(self, capacity):
        return self.lead + self.head + self.per_byte * capacity + self.trail

    def faults(self):
        """The codes M1 to M13 and M15 with their places, the one that is told first."""
        lists = (("node", self.nodes, 1, 32), ("process", self.processes, 1, 256),
                 ("link", self.links, 0, 1024), ("message", self.messages, 0, 512))
        for word, things, least, most in lists:
            if not least <= len(things) <= most:
                yield "M1", (word,)
        for k, message in enumerate(self.messages):
            if not message.to:
                yield "M1", ("message", k)
        named = (("node", self.nodes), ("process", self.processes), ("message", self.messages))
        for word, things in named:
            for k, thing in enumerate(things):
                if not NAME.fullmatch(thing.name.encode()):
                    yield "M2", (word, k)
        for word, things in named:
            for k, thing in enumerate(things):
                if indices_of(things)[thing.name] < k:
                    yield "M3", (word, k)
        yield from self.faults_of_numbers()
        for k, message in enumerate(self.messages):
            if any(self.processes[q].node == self.sender_node(k) for q in message.to):
                yield "M7", ("message", k)
        if self.lead < 2 * self.precision:
            yield "M8", ()
        if self.trail < self.precision:
            yield "M9", ()
        for k, process in enumerate(self.processes):
            if process.deadline < process.release + process.wcet:
                yield "M10", ("process", k)
        for k, link in enumerate(self.links):
            ends = self.processes[link.before], self.processes[link.after]
            if link.before == link.after or ends[0].node != ends[1].node:
                yield "M11", ("link", k)
        for k, message in enumerate(self.messages):
            if len(set(message.to)) < len(message.to):
                yield "M12", ("message", k)
        if circle := self.circle():
            yield "M13", circle
        for k, message in enumerate(self.messages):
            if message.both and self.channels == 1:
                yield "M15", ("message", k)

    def faults_of_numbers(self):
        """M5 and M6."""
        least = {"head": 1, "per_byte": 1, "horizon": 1, "channels": 1}
        most = {"per_byte": 1_000, "horizon": TICKS_MOST, "channels": CHANNELS_MOST}
        if any(not least.get(key, 0) <= value <= most.get(key, 10_000) for key, value in self.cluster.items()):
            yield "M5", ("cluster",)
        for k, process in enumerate(self.processes):
            if not (1 <= process.wcet <= TICKS_MOST and process.release <= TICKS_MOST
                    and 1 <= process.deadline <= TICKS_MOST):
                yield "M5", ("process", k)
        for k, message in enumerate(self.messages):
            if not 1 <= message.bytes <= 1_000:
                yield "M5", ("message", k)
        for k, node in enumerate(self.nodes):
            options = node.capacities
            rising = all(one < next_one for one, next_one in zip(options, options[1:]))
            if not (1 <= len(options) <= 8 and rising and options[-1] <= 1_000):
                yield "M6", ("node", k)

    def circle(self):
        """Processes that wait for each other, or none. Those that wait for nothing are taken out until none is left."""
        waits = {(link.before, link.after) for link in self.links}
        waits |= {(message.sender, q) for message in self.messages for q in message.to}
        while True:
            behind = {q for _, q in waits}
            kept = {(p, q) for p, q in waits if p in behind}
            if kept == waits:
                break
            waits = kept
        if not waits:
            return []
        # Each process here waits for one that does so too: going back, one comes again.
        before = {q: p for p, q in sorted(waits)}
        path = [min(before)]
        while (process := before[path[-1]]) not in path:
            path.append(process)
        path = path[path.index(process):][::-1]
        first = path.index(min(path))
        return path[first:] + path[:first]


# Lines of a text


class Lines:
    """The lines of a text, each without its LF, counted from 1, or on from those before. `early` and `behind` tell its end."""

    def __init__(self, text, refuse, early, behind, before=0):
        self.lines = text.split(b"\n")
        self.rest = self.lines.pop()
        self.refuse, self.early, self.behind = refuse, early, behind
        self.before = self.count = before

    def next(self):
        self.count += 1
        if self.count - self.before > len(self.lines):
            raise self.refuse(self.early, self.count)
        return self.lines[self.count - self.before - 1]

    def end(self):
        if self.rest or self.count - self.before < len(self.lines):
            raise self.refuse(self.behind, self.count + 1)


def is_too_great(word):
    return len(word) > 10 or int(word) > NUMBER_MOST


# A plan


@dataclass
class Plan:
    delay: int
    order: list
    caps: list
    starts: list
    rounds: list
    channels: list


def plan_fault(code, *place):
    return Refused(5, f"plan {code}", *place)


def stated_number(lines, *words):
    """The number at the end of the next line, behind a keyword and the name that has to stand there."""
    line, count = lines.next(), lines.count
    found = line.split(b" ")
    if (len(found) != len(words) + 1 or found[0] != words[0] or not NUMBER.fullmatch(found[-1])
            or not all(NAME.fullmatch(name) for name in found[1:-1])):
        raise plan_fault("F1", count)
    if is_too_great(found[-1]):
        raise plan_fault("F4", count)
    if tuple(found[:-1]) != words:
        raise plan_fault("F2", count)
    return int(found[-1])


def stated_order(lines, instance):
    line, count = lines.next(), lines.count
    word, *names = line.split(b" ")
    if word != b"order" or not all(NAME.fullmatch(name) for name in names):
        raise plan_fault("F1", count)
    indices = {node.name.encode(): n for n, node in enumerate(instance.nodes)}
    if any(name not in indices for name in names):
        raise plan_fault("F2", count)
    order = [indices[name] for name in names]
    if sorted(order) != list(range(len(instance.nodes))):
        raise plan_fault("F3", count)
    return order


def stated_channel(lines, name):
    """The channel in the next line, which is that of the message of this name: 0, 1, or 2 for both."""
    line, count = lines.next(), lines.count
    found = line.split(b" ")
    if (len(found) != 3 or found[0] != b"chan" or not NAME.fullmatch(found[1])
            or found[2] not in CHANNEL_WORDS):
        raise plan_fault("F1", count)
    if found[1] != name:
        raise plan_fault("F2", count)
    return CHANNEL_WORDS.index(found[2])


def stated_channels(lines, instance):
    if instance.channels == 1:
        return [0] * len(instance.messages)
    return [stated_channel(lines, message.name.encode()) for message in instance.messages]


def read_plan(instance, text, lines_before):
    lines = Lines(text, plan_fault, "F5", "F6", lines_before)
    if lines.next() != b"ttplan %d" % instance.channels:
        raise plan_fault("F1", lines.count)
    plan = Plan(
        stated_number(lines, b"delay"),
        stated_order(lines, instance),
        [stated_number(lines, b"cap", node.name.encode()) for node in instance.nodes],
        [stated_number(lines, b"start", process.name.encode()) for process in instance.processes],
        [stated_number(lines, b"round", message.name.encode()) for message in instance.messages],
        stated_channels(lines, instance))
    lines.end()
    return plan


def on_channels(plan, m):
    """The channels that a message is on, in order."""
    number = plan.channels[m]
    return (0, 1) if CHANNEL_WORDS[number] == b"both" else (number,)


def plan_faults(instance, plan):
    """The rules V3 to V11 that a plan breaks, the one that is told first; its text keeps V1 and V2."""
    processes, starts = instance.processes, plan.starts
    ends = [start + process.wcet for start, process in zip(starts, processes)]
    durations = [instance.duration(capacity) for capacity in plan.caps]
    length = sum(durations)
    offsets = {n: sum(durations[u] for u in plan.order[:k]) for k, n in enumerate(plan.order)}
    for n, node in enumerate(instance.nodes):
        if plan.caps[n] not in node.capacities:
            yield "V3", n
    for p, process in enumerate(processes):
        if starts[p] < process.release:
            yield "V4", p
    for p, process in enumerate(processes):
        if ends[p] > min(process.deadline, instance.horizon):
            yield "V5", p
    for p, process in enumerate(processes):
        for q in range(p + 1, len(processes)):
            if process.node == processes[q].node and ends[p] > starts[q] and ends[q] > starts[p]:
                yield "V6", p, q
    for k, link in enumerate(instance.links):
        if ends[link.before] > starts[link.after]:
            yield "V7", k
    begins = [plan.rounds[m] * length + offsets[instance.sender_node(m)] for m in range(len(instance.messages))]
    for m, message in enumerate(instance.messages):
        if ends[message.sender] + instance.copy_out > begins[m]:
            yield "V8", m
    for m, message in enumerate(instance.messages):
        for q in message.to:
            if begins[m] + durations[instance.sender_node(m)] + instance.copy_in > starts[q]:
                yield "V9", m, q
    for m in range(len(instance.messages)):
        n, r = instance.sender_node(m), plan.rounds[m]
        for c in on_channels(plan, m):
            frame = [x for x in instance.sent_by[n] if plan.rounds[x] == r and c in on_channels(plan, x)]
            if sum(instance.messages[x].bytes for x in frame) > plan.caps[n]:
                yield ("V10", n, r) if instance.channels == 1 else ("V10", n, r, c)
    for m, message in enumerate(instance.messages):
        if message.both and on_channels(plan, m) != (0, 1):
            yield "V11", m


def verified(instance, plan_text, lines_before=0):
    """A valid plan that states its own delay, whose text stands behind so many lines; raises Refused."""
    if len(plan_text) > PLAN_BYTES:
        raise Refused(6, "read plan")
    plan = read_plan(instance, plan_text, lines_before)
    for fault in plan_faults(instance, plan):
        raise plan_fault(*fault)
    delay = max(start + process.wcet for start, process in zip(plan.starts, instance.processes))
    if delay != plan.delay:
        raise plan_fault("D1", delay)
    return plan


def verify(instance, plan_text):
    """The line of a valid plan; raises Refused."""
    return f"valid {verified(instance, plan_text).delay}"


# A schedule as a table


def slack(instance, plan, p):
    """By how many ticks a process may run longer: tried, since a plan that breaks a rule breaks it with more ticks too."""
    process = instance.processes[p]
    wcet, fits, breaks = process.wcet, 0, TICKS_MOST + 1
    while breaks - fits > 1:
        ticks = (fits + breaks) // 2
        process.wcet = wcet + ticks
        if next(plan_faults(instance, plan), None):
            breaks = ticks
        else:
            fits = ticks
    process.wcet = wcet
    return fits


def in_order(instance, plan, node):
    """The processes of a node in the order of their starts."""
    there = [p for p, process in enumerate(instance.processes) if process.node == node]
    return sorted(there, key=lambda p: plan.starts[p])


def dispatch_row(instance, plan, p):
    """What a dispatcher is told of a process."""
    process, start = instance.processes[p], plan.starts[p]
    return (instance.nodes[process.node].name, process.name, start, start + process.wcet, process.release,
            min(process.deadline, instance.horizon))


def process_rows(instance, plan):
    yield "node", "process", "start", "end", "release", "deadline", "slack"
    for n in range(len(instance.nodes)):
        for p in in_order(instance, plan, n):
            yield *dispatch_row(instance, plan, p), slack(instance, plan, p)


def slot_times(instance, plan):
    """The length of a round, and for each node how far into it its slot begins, and how long that is."""
    durations = [instance.duration(capacity) for capacity in plan.caps]
    begins, behind = {}, 0
    for n in plan.order:
        begins[n] = behind
        behind += durations[n]
    return behind, begins, durations


def cycle_rounds(instance, plan):
    """How many rounds a cycle has: as many as the delay needs."""
    return -(-plan.delay // slot_times(instance, plan)[0])


def cycle_line(instance, plan):
    """What the last line says of a valid plan that is explained: its cycle."""
    ticks, rounds = slot_times(instance, plan)[0], cycle_rounds(instance, plan)
    return f"A round takes {ticks}, and the cycle has {rounds} of them: the next one may begin at {rounds * ticks}."


def slot_rows(instance, plan):
    yield "round", "position", "channel", "node", "start", "frame", "frame_end", "end", "capacity", "used", "messages"
    length, begins, durations = slot_times(instance, plan)
    sent = {}
    for m, message in enumerate(instance.messages):
        for c in on_channels(plan, m):
            sent.setdefault((plan.rounds[m], instance.sender_node(m), c), []).append(message)
    for r in range(cycle_rounds(instance, plan)):
        for (k, n), c in itertools.product(enumerate(plan.order), range(instance.channels)):
            start, frame = r * length + begins[n], sent.get((r, n, c), [])
            end = start + durations[n]
            yield (r, k, c, instance.nodes[n].name, start, start + instance.lead, end - instance.trail, end, plan.caps[n],
                   sum(message.bytes for message in frame), " ".join(message.name for message in frame))


def message_rows(instance, plan):
    yield ("message", "sender", "receiver", "bytes", "round", "channel", "node", "ready", "slot", "slot_end", "arrived",
           "needed")
    length, begins, durations = slot_times(instance, plan)
    for m, message in enumerate(instance.messages):
        n, sender = instance.sender_node(m), instance.processes[message.sender]
        ready = plan.starts[message.sender] + sender.wcet + instance.copy_out
        start = plan.rounds[m] * length + begins[n]
        end = start + durations[n]
        for q in message.to:
            yield (message.name, sender.name, instance.processes[q].name, message.bytes, plan.rounds[m],
                   CHANNEL_WORDS[plan.channels[m]].decode(), instance.nodes[n].name, ready, start, end, end + instance.copy_in,
                   plan.starts[q])


TABLES = {"processes": process_rows, "slots": slot_rows, "messages": message_rows}


def schedule(instance, plan_text, table):
    """The text of a table of a printed plan; raises Refused."""
    rows = TABLES[table](instance, printed(instance, plan_text))
    return "\n".join(",".join(str(cell) for cell in row) for row in rows)


# What is loaded into a cluster


def is_received(instance, message, node):
    """Whether a message has a receiver on a node."""
    return any(instance.processes[q].node == node for q in message.to)


def table_lines(instance, plan, node, rounds=None):
    """The lines of a node's table, of the cycle's rounds or of so many."""
    lines = []
    for r in range(rounds or cycle_rounds(instance, plan)):
        for k, n in enumerate(plan.order):
            words = ["row", r, k, instance.nodes[n].name, plan.caps[n]]
            for c in range(instance.channels):
                offset = 0
                for m in instance.sent_by[n]:
                    message = instance.messages[m]
                    if plan.rounds[m] != r or c not in on_channels(plan, m):
                        continue
                    if node == n or is_received(instance, message, node):
                        words.append(":".join(map(str, [message.name, c, offset] if instance.channels > 1 else [message.name, offset])))
                    offset += message.bytes
            lines.append(" ".join(map(str, words)))
    return lines


def window_lines(instance, plan, node, rounds=None):
    """The lines of the windows of a node's slots, in the cycle's rounds or in so many."""
    length, begins, durations = slot_times(instance, plan)
    for r in range(rounds or cycle_rounds(instance, plan)):
        start = r * length + begins[node]
        opens = start + instance.lead - instance.precision
        yield f"window {r} {instance.nodes[node].name} {opens} {start + durations[node] - instance.trail + instance.precision}"


def dispatch_rows(instance, plan, node):
    """What a node's dispatcher is told of its processes."""
    return (dispatch_row(instance, plan, p) for p in in_order(instance, plan, node))


def loaded(instance, plan, rounds):
    """The lines of the tables of so many rounds, node by node, and of the windows, in order of time."""
    yield f"ttmedl {instance.channels}"
    yield f"rounds {rounds}"
    for n, node in enumerate(instance.nodes):
        yield f"node {node.name}"
        yield from table_lines(instance, plan, n, rounds)
    yield "ttguard 1"
    for windows in zip(*(window_lines(instance, plan, n, rounds) for n in plan.order)):
        yield from windows


def tables(instance, plan_text, rounds=None):
    """The text of what is loaded into a cluster by a valid plan, of the rounds of its cycle or of so many; raises Refused."""
    plan = verified(instance, plan_text)
    needed = cycle_rounds(instance, plan)
    if rounds is None:
        rounds = needed
    elif rounds < needed:
        raise Refused(5, "tables rounds", needed, rounds)
    elif rounds * len(instance.nodes) > TABLE_SLOTS_MOST:
        raise Refused(5, "tables slots", rounds * len(instance.nodes))
    return "\n".join(loaded(instance, plan, rounds))


# A cycle that repeats


TABLE_SLOTS_MOST, FITS_MOST, TRAIL_MOST = 1_000_000, 5, 10_000


def fits(instance, dividing):
    """Trails and rounds that divide a period, by rising trail and then by rising round."""
    bytes_together = {0}
    for node in instance.nodes:
        bytes_together = {together + capacity for together in bytes_together for capacity in node.capacities}
    for trail in range(instance.trail, TRAIL_MOST + 1):
        beside = len(instance.nodes) * (instance.lead + instance.head + trail)
        rounds = {beside + instance.per_byte * together for together in bytes_together}
        for ticks in dividing:
            if ticks in rounds:
                yield trail, ticks


def period_lines(instance, plan, period):
    """How the rounds of a plan lie in a period; raises Refused."""
    length, needed = slot_times(instance, plan)[0], cycle_rounds(instance, plan)
    held, gap = divmod(period, length)
    if held < needed:
        raise Refused(5, "period rounds", needed, held)
    yield "ttperiod 1"
    yield from (f"period {period}", f"round {length}", f"rounds {held}", f"gap {gap}")
    if gap:
        dividing = [ticks for ticks in range(1, period + 1) if period % ticks == 0]
        yield f"near {max(ticks for ticks in dividing if ticks <= length)} {min(ticks for ticks in dividing if ticks >= length)}"
        for trail, ticks in itertools.islice(fits(instance, dividing), FITS_MOST):
            yield f"fit {trail} {ticks}"


def period(instance, plan_text, ticks):
    """The text of a valid plan in a period; raises Refused."""
    return "\n".join(period_lines(instance, verified(instance, plan_text), ticks))


# What membership does


class Member:
    """A node in a cycle: its vector, whether it has sent and wasn't acknowledged, and then of whose frame it is in doubt."""

    def __init__(self, node, nodes):
        self.node, self.vector = node, frozenset(nodes)
        self.has_sent, self.doubted = False, None

    def is_active(self):
        return self.node in self.vector

    def sends(self):
        """The vector that its frame shows."""
        self.has_sent, self.doubted = True, None
        return self.vector

    def sees(self, sender, shown):
        """What it does and is told of it, in a slot of another, of which it sees this vector, or None where no frame comes."""
        doubted = self.doubted
        if doubted is not None and shown == self.vector - {doubted}:
            return self.is_acknowledged() + self.drops(doubted)
        if doubted is None and shown == self.vector:
            return self.is_acknowledged() if self.has_sent else []
        if self.has_sent and shown == self.vector - {self.node}:
            return self.doubts(sender) if doubted is None else self.leaves()
        return self.drops(sender)

    def is_acknowledged(self):
        self.has_sent, self.doubted = False, None
        return [("ack", self.node)]

    def doubts(self, sender):
        self.doubted = sender
        return [("doubt", self.node)]

    def drops(self, node):
        told = [("drop", self.node, node)] if node in self.vector else []
        self.vector -= {node}
        return told

    def leaves(self):
        self.vector -= {self.node}
        return [("leave", self.node)]


def slot_lines(instance, member, sender, shown, frame):
    """The lines of what a node does in a slot of another, and of the messages of the frame that it gets."""
    for word, *nodes in member.sees(sender, shown):
        yield " ".join([word, *(instance.nodes[n].name for n in nodes)])
    if member.is_active() and shown == member.vector:
        for message in frame:
            if is_received(instance, message, member.node):
                yield f"deliver {message.name} {instance.nodes[member.node].name}"


def replay_lines(instance, plan, losses):
    """The lines of a cycle with these losses, each of a round, a position and a node, or None for all."""
    members = [Member(n, range(len(instance.nodes))) for n in range(len(instance.nodes))]
    yield "ttreplay 1"
    for r, (k, n) in itertools.product(range(cycle_rounds(instance, plan)), enumerate(plan.order)):
        shown = members[n].sends() if members[n].is_active() else None
        yield f"slot {r} {k} {instance.nodes[n].name} {'silent' if shown is None else 'sent'}"
        frame = [instance.messages[m] for m in instance.sent_by[n] if plan.rounds[m] == r]
        for member in members:
            if member.node != n and member.is_active():
                is_lost = losses & {(r, k, member.node), (r, k, None)}
                yield from slot_lines(instance, member, n, None if is_lost else shown, frame)
    for node, member in zip(instance.nodes, members):
        yield " ".join(["member", node.name, *(instance.nodes[n].name for n in sorted(member.vector))])


def stated_loss(index, word):
    """The loss that the word of this index names; raises Refused."""
    *slot, node = os.fsencode(word).split(b"/")
    if len(slot) != 2 or not all(map(is_number, slot)) or not (node == b"*" or is_number(node)):
        raise Refused(2, "usage loss", index)
    return *map(int, slot), None if node == b"*" else int(node)


def stated_losses(words):
    return [stated_loss(index, word) for index, word in enumerate(words)]


def can_be_lost(instance, plan, r, k, node):
    """Whether this slot is in the cycle, and this node is there and isn't its sender."""
    nodes = len(instance.nodes)
    return r < cycle_rounds(instance, plan) and k < nodes and (node is None or node < nodes and node != plan.order[k])


def replayed(instance, plan_text, losses):
    """The text of a cycle of a valid plan in which these frames are lost; raises Refused."""
    plan = verified(instance, plan_text)
    if len(instance.nodes) < 3:
        raise Refused(5, "replay N1")
    for index, loss in enumerate(losses):
        if not can_be_lost(instance, plan, *loss):
            raise Refused(5, "replay N2", index)
    return "\n".join(replay_lines(instance, plan, set(losses)))


# Two releases


def figures(things, numbers):
    return {thing.name: number for thing, number in zip(things, numbers)}


def by_name(instance, plan):
    """What is loaded for each node, the order, and what is given and planned of each thing, all by names."""
    loads = {node.name: (table_lines(instance, plan, n), list(window_lines(instance, plan, n)), list(dispatch_rows(instance, plan, n)))
             for n, node in enumerate(instance.nodes)}
    words = [CHANNEL_WORDS[number].decode() for number in plan.channels]
    return loads, [instance.nodes[n].name for n in plan.order], {
        "node": figures(instance.processes, (instance.nodes[process.node].name for process in instance.processes)),
        "wcet": figures(instance.processes, (process.wcet for process in instance.processes)),
        "cap": figures(instance.nodes, plan.caps), "start": figures(instance.processes, plan.starts),
        "round": figures(instance.messages, plan.rounds), "chan": figures(instance.messages, words)}


def comparison(old, new):
    """What is different of two instances, each with a valid plan of it, and the status."""
    (old_loads, old_order, old_figures), (new_loads, new_order, new_figures) = by_name(*old), by_name(*new)
    lines = []
    for name in [*new_loads, *(name for name in old_loads if name not in new_loads)]:
        fate = "new" if name not in old_loads else "gone" if name not in new_loads else "same" if old_loads[name] == new_loads[name] else "changed"
        lines.append(f"{fate} {name}")
    if old_order != new_order:
        lines.append("order changed")
    if old[0].channels == new[0].channels == 1:
        del old_figures["chan"], new_figures["chan"]
    for keyword, after in new_figures.items():
        before = old_figures[keyword]
        for name in [*after, *(name for name in before if name not in after)]:
            if before.get(name) != after.get(name):
                lines.append(f"{keyword} {name} {before.get(name, '-')} {after.get(name, '-')}")
    return "\n".join(lines), int(any(not line.startswith("same ") for line in lines))


@contextlib.contextmanager
def of_release(word):
    """Tells a refusal behind the word for a release."""
    try:
        yield
    except Refused as fault:
        raise Refused(fault.status, word, fault.line) from fault


def released(word, instance_text, plan_text):
    """An instance with a valid plan of it; raises Refused."""
    with of_release(word):
        instance = Instance(instance_text)
        return instance, printed(instance, plan_text)


# A plan as a picture


COLOURS = """#044763 #d7706c #007656 #c1acfe #704e01 #04b3cb #bd5983 #a9dc8e #044e80 #da825f #017f74 #edadf6 #656009 #16bcec #cd6372 #91ecb0""".split()
WHITE_ON = (0, 2, 4, 6, 8, 10, 12)
STYLE = ("text{font:12px sans-serif;fill:#222}text.mark{text-anchor:middle}"
         "line{stroke:#555}line.mark{stroke:#ddd}line.delay{stroke:#c00;stroke-dasharray:4 3}line.horizon,.due line{stroke:#c00}"
         "text.horizon,.due text{fill:#c00}text.horizon{text-anchor:end}.due text{font-size:9px;text-anchor:middle}.track{fill:#f4f4f4}"
         + "".join(f".n{n}{{fill:{colour}}}" for n, colour in enumerate(COLOURS))
         + ",".join(f"text.t{n}" for n in WHITE_ON) + "{fill:#fff}.beside text{fill:#222}")
MARK_STEPS = [first * 10**zeros for zeros in range(8) for first in (1, 2, 5)]
WIDTHS, SLOTS_MOST = range(200, 10_001), 100_000


class Canvas:
    """Where things stand: rows and the scale in pixels, slots and processes in ticks."""

    def __init__(self, instance, plan, width):
        self.round, self.begins, self.durations = slot_times(instance, plan)
        self.rounds = cycle_rounds(instance, plan)
        self.width, self.across = width, width - 152
        self.channels = instance.channels
        self.height = 52 + 34 * (self.channels + len(instance.nodes)) + 8
        self.cycle = self.rounds * self.round
        self.figures = f"delay {plan.delay}, round {self.round}, cycle {self.cycle} ticks"

    def place(self, tick):
        tenths = tick * 10 * self.across // self.cycle + 1200
        return f"{tenths // 10}.{tenths % 10}"

    def line(self, before, start, top, end, bottom):
        return f'<line{before} x1="{self.place(start)}" y1="{top}" x2="{self.place(end)}" y2="{bottom}"'

    def rectangle(self, row, n, start, length):
        return f'<rect class="n{colour_of(n)}" x="{start}" y="{top_of(row)}" width="{length}" height="24"/>'

    def name(self, row, n, start, length, name, behind=""):
        return (f'<svg x="{start}" y="{top_of(row)}" width="{length}" height="24">'
                f'<svg width="{self.cycle}" height="24" viewBox="0 0 {self.across} 24" preserveAspectRatio="none">'
                f'<text class="t{colour_of(n)}" x="4" y="16">{name}</text>{behind}</svg></svg>')


def top_of(row):
    return 57 + 34 * row


def colour_of(n):
    return n % len(COLOURS)


def picture_rows(instance, canvas):
    for row in range(canvas.channels + len(instance.nodes)):
        top, n = top_of(row), row - canvas.channels
        yield f'<rect class="track" x="120" y="{top}" width="{canvas.across}" height="24"/>'
        if n < 0:
            yield f'<svg y="{top}" width="116" height="24"><text x="8" y="16">channel {row}</text></svg>'
            continue
        name = instance.nodes[n].name
        yield (f'<rect class="n{colour_of(n)}" x="8" y="{top}" width="8" height="24"/><svg y="{top}" width="116" height="24">'
               f'<title>{name}</title><text x="22" y="16">{name}</text></svg>')


def scale(canvas, delay):
    step = next(step for step in MARK_STEPS if 80 * canvas.cycle <= step * canvas.across)
    for tick in range(0, canvas.cycle + 1, step):
        yield (canvas.line(' class="mark"', tick, 46, tick, canvas.height - 8)
               + f'/><text class="mark" x="{canvas.place(tick)}" y="42">{tick}</text>')
    yield canvas.line(' class="delay"', delay, 46, delay, canvas.height - 8) + f"><title>delay {delay}</title></line>"


def message_lines(instance, plan, canvas):
    for m, message in enumerate(instance.messages):
        n, sender = instance.sender_node(m), instance.processes[message.sender]
        end = plan.starts[message.sender] + sender.wcet
        slot = plan.rounds[m] * canvas.round + canvas.begins[n]
        bottom = top_of(max(on_channels(plan, m))) + 24
        yield (canvas.line("", end, top_of(canvas.channels + n), slot, bottom)
               + f"><title>{message.name}: {sender.name} ends at {end}, slot at {slot}</title></line>")
        slot += canvas.durations[n]
        for q in message.to:
            start, receiver = plan.starts[q], instance.processes[q]
            yield (canvas.line("", slot, bottom, start, top_of(canvas.channels + receiver.node))
                   + f"><title>{message.name}: slot ends at {slot}, {receiver.name} starts at {start}</title></line>")


def slot_boxes(instance, plan, canvas, are_used):
    for r, n, c in itertools.product(range(canvas.rounds), plan.order, range(canvas.channels)):
        frame = [message for m, message in enumerate(instance.messages)
                 if (plan.rounds[m], instance.sender_node(m)) == (r, n) and c in on_channels(plan, m)]
        if bool(frame) != are_used:
            continue
        start, length = r * canvas.round + canvas.begins[n], canvas.durations[n]
        words = (f"{instance.nodes[n].name} in round {r}: {start} to {start + length},"
                 f" {sum(message.bytes for message in frame)} of {plan.caps[n]} bytes")
        box, names = canvas.rectangle(c, n, start, length), "".join(f" {message.name}" for message in frame)
        if are_used:
            beside = canvas.name(c, n, start, name_room(instance, plan, canvas, c, start), names)
            yield (f'<g><title>{words}:{names}</title><g class="beside">{beside}</g>{box}'
                   f"{canvas.name(c, n, start, length, names)}</g>")
        else:
            yield f"<g><title>{words}</title>{box}</g>"


def name_room(instance, plan, canvas, channel, start):
    """The ticks to the next slot that carries something on the channel; as many as the cycle has where none follows."""
    slots = (plan.rounds[m] * canvas.round + canvas.begins[instance.sender_node(m)]
             for m in range(len(instance.messages)) if channel in on_channels(plan, m))
    return min((slot - start for slot in slots if slot > start), default=canvas.cycle)


def limit_lines(instance, canvas):
    for process in instance.processes:
        due, top = process.deadline, top_of(canvas.channels + process.node)
        if due < instance.horizon and due <= canvas.cycle:
            yield (f'<g class="due">{canvas.line("", due, top, due, top + 27)}><title>{process.name} is due by {due}</title></line>'
                   f'<text x="{canvas.place(due)}" y="{top - 1}">{due}</text></g>')
    end = instance.horizon
    if end <= canvas.cycle:
        yield (canvas.line(' class="horizon"', end, 46, end, canvas.height - 8) + f"><title>horizon {end}</title></line>"
               f'<text class="horizon" x="{canvas.place(end)}" y="30">horizon {end}</text>')


def process_boxes(instance, plan, canvas):
    for p, process in enumerate(instance.processes):
        n, at = process.node, (canvas.channels + process.node, process.node, plan.starts[p], process.wcet)
        yield (f"<g><title>{process.name} on {instance.nodes[n].name}: from {plan.starts[p]} for {process.wcet},"
               f" released at {process.release}, due by {min(process.deadline, instance.horizon)}</title>"
               + canvas.rectangle(*at) + canvas.name(*at, process.name, '<rect width="1" height="24"/>') + "</g>")


def picture(instance, plan, canvas, used):
    """The lines of a picture."""
    yield (f'<svg xmlns="http://www.w3.org/2000/svg" width="{canvas.width}" height="{canvas.height}"'
           f' viewBox="0 0 {canvas.width} {canvas.height}">')
    yield f"<title>{canvas.figures}</title>"
    yield f"<style>{STYLE}</style>"
    yield f'<rect width="{canvas.width}" height="{canvas.height}" fill="#fff"/>'
    yield f'<text x="8" y="18">{canvas.figures}</text>'
    yield from picture_rows(instance, canvas)
    yield from scale(canvas, plan.delay)
    yield from message_lines(instance, plan, canvas)
    yield (f'<svg x="120" width="{canvas.across}" height="{canvas.height}" viewBox="0 0 {canvas.cycle} {canvas.height}"'
           ' preserveAspectRatio="none">')
    if not used:
        yield from slot_boxes(instance, plan, canvas, False)
        for c in range(canvas.channels):
            yield f'<rect y="{top_of(c) + 3}" width="{canvas.cycle}" height="18" fill="#fff" pointer-events="none"/>'
    yield from slot_boxes(instance, plan, canvas, True)
    yield from process_boxes(instance, plan, canvas)
    yield "</svg>"
    yield from limit_lines(instance, canvas)
    yield "</svg>"


def draw(instance, plan_text, width, used):
    """The text of a picture of a printed plan; raises Refused."""
    plan = printed(instance, plan_text)
    canvas = Canvas(instance, plan, width)
    slots = canvas.rounds * len(instance.nodes)
    if slots > SLOTS_MOST and not used:
        raise Refused(5, "draw slots", slots)
    return "\n".join(picture(instance, plan, canvas, used))


# What may stand in a plan's place


def is_number(word):
    return NUMBER.fullmatch(word) is not None and not is_too_great(word)


WHY_WORDS = b"budget", b"memory", b"until", b"time", b"gap", b"part"  # why a search stopped


def says_plan(line):
    """Whether the line that a search prints in front of a plan says that it found one; None of any other line."""
    words = line.split(b" ")
    if len(words) == 2 and words[0] == b"limit":
        return True if is_number(words[1]) else None
    if len(words) == 4 and words[0] == b"stopped" and words[1] in WHY_WORDS:
        words = words[1:]
    elif len(words) != 3 or words[0] != b"between":
        return None
    if not is_number(words[1]) or not (words[2] == b"none" or is_number(words[2])):
        return None
    return words[2] != b"none"


def plan_if_found(instance, text):
    """The valid plan of a printed text, or None where its first line says that none was found; raises Refused."""
    line, end, rest = text.partition(b"\n")
    found = says_plan(line) if end else None
    if found is None:
        return verified(instance, text)
    if found:
        return verified(instance, rest, lines_before=1)
    if len(rest) > PLAN_BYTES:
        raise Refused(6, "read plan")
    if rest:
        raise plan_fault("F6", 2)
    return None


def printed(instance, text):
    """The valid plan of a printed text; raises Refused."""
    plan = plan_if_found(instance, text)
    if plan is None:
        raise plan_fault("F5", 2)
    return plan


def given_delay(instance, text):
    """The delay of the plan that is given, or None where it is said that there is none; raises Refused."""
    plan = None if text == b"none\n" else plan_if_found(instance, text)
    return None if plan is None else plan.delay


# A certificate: its text


BRANCHES = {b"place": 1, b"cap": 2, b"pair": 2, b"round": 2, b"chan": 2}
STEPS = {
    b"es-release": 1, b"es-link": 1, b"es-before": 2, b"es-arrive": 2, b"es-message": 2, b"lo-send": 1, b"le-own": 1,
    b"le-link": 1, b"le-before": 2, b"le-message": 2, b"le-send": 1, b"hi-arrive": 2, b"ord-window": 2, b"ord-twin": 2,
    b"us-settled": 1, b"x-window": 1, b"x-round": 1, b"x-load": 3, b"x-frame": 1, b"x-frames": 3,
    b"x-channel": 4, b"x-late": 2, b"x-silent": 2, b"x-mirror": 1}


def certificate_fault(code, line):
    return Refused(5, f"certificate {code}", line)


def is_step(word, numbers):
    return len(numbers) >= 2 if word == b"x-cycle" else STEPS.get(word) == len(numbers)


def is_node(word, numbers):
    if word == b"chan":
        return len(numbers) == 2 and numbers[1] == b"3"
    return len(numbers) == 2 if word == b"leaf" else BRANCHES.get(word) == len(numbers)


# Version 1 has no lines that speak of channels.
def is_step_of_1(word, numbers):
    return word not in (b"x-channel", b"x-mirror") and is_step(word, numbers)


def is_node_of_1(word, numbers):
    return word != b"chan" and is_node(word, numbers)


# By the first line, what a node's line and a step's have to be.
FORMS = {b"ttcert 1": (is_node_of_1, is_step_of_1), b"ttcert 2": (is_node, is_step)}


# Most lines of a large certificate stand in it a thousand times, so what is known of a line is kept.
@functools.lru_cache(maxsize=65_536)
def parts(line):
    """The word and the numbers of a line that was read before."""
    word, *numbers = line.split(b" ")
    return word, tuple(int(number) for number in numbers)


@functools.lru_cache(maxsize=65_536)
def fault_of_line(line, is_right):
    """The code of a line that hasn't the form that `is_right` asks for, or None."""
    word, *numbers = line.split(b" ")
    if not is_right(word, numbers) or not all(NUMBER.fullmatch(number) for number in numbers):
        return "G2"
    return "G3" if any(is_too_great(number) for number in numbers) else None


def stated_line(lines, is_right):
    """The next line, which has the form that `is_right` asks for."""
    line = lines.next()
    if code := fault_of_line(line, is_right):
        raise certificate_fault(code, lines.count)
    return line


def children_stated(word, numbers):
    return 2 if word in (b"pair", b"round") else numbers[-1]


def read_certificate(text):
    """The bound, and the nodes in the order of their lines: the number of the line, the word, the numbers and the steps' lines."""
    lines = Lines(text, certificate_fault, "G5", "G6")
    if (version := lines.next()) not in FORMS:
        raise certificate_fault("G1", lines.count)
    is_right_node, is_right_step = FORMS[version]
    _, (low,) = parts(stated_line(lines, lambda word, numbers: word == b"low" and len(numbers) == 1))
    nodes = []
    # How many children are still to come of each branch above the next node: the root is one child of nothing.
    left = [1]
    while left:
        if left[-1] == 0:
            left.pop()
            continue
        left[-1] -= 1
        word, numbers = parts(stated_line(lines, is_right_node))
        if len(left) - 1 > BRANCHES_MOST:
            raise certificate_fault("G4", lines.count)
        steps, line = [], lines.count
        if word == b"leaf":
            for _ in range(numbers[1]):
                steps.append(stated_line(lines, is_right_step))
        else:
            left.append(children_stated(word, numbers))
        nodes.append((line, word, numbers, steps))
    lines.end()
    return low, nodes


# A certificate: its tree


@dataclass(frozen=True)
class Choice:
    """What the branches above a node decide; ranges are from the first to the last round, and None is what is free."""

    order: tuple
    caps: tuple
    pairs: frozenset
    ranges: tuple
    channels: tuple


def first_channel(instance, message):
    if instance.channels == 1:
        return 0
    return BOTH if message.both else None


def root(instance):
    return Choice(
        (), (None,) * len(instance.nodes), frozenset(), ((0, instance.horizon - 1),) * len(instance.messages),
        tuple(first_channel(instance, message) for message in instance.messages))


def with_item(items, k, item):
    return items[:k] + (item,) + items[k + 1:]


def children(instance, choice, word, numbers):
    """The choices of a branch's children in order, or None where it doesn't stand rightly."""
    a, *b = numbers
    if word == b"place":
        unplaced = [n for n in range(len(instance.nodes)) if n not in choice.order]
        return [replace(choice, order=choice.order + (n,)) for n in unplaced] or None
    if word == b"cap":
        if a >= len(instance.nodes) or choice.caps[a] is not None:
            return None
        return [replace(choice, caps=with_item(choice.caps, a, option)) for option in instance.nodes[a].capacities]
    if word == b"pair":
        pairs = (a, b[0]), (b[0], a)
        if not are_neighbours(instance, *pairs[0]) or any(pair in choice.pairs for pair in pairs):
            return None
        return [replace(choice, pairs=choice.pairs | {pair}) for pair in pairs]
    if word == b"chan":
        if a >= len(instance.messages) or choice.channels[a] is not None:
            return None
        return [replace(choice, channels=with_item(choice.channels, a, channel)) for channel in (0, 1, BOTH)]
    if a >= len(instance.messages) or not choice.ranges[a][0] <= b[0] < choice.ranges[a][1]:
        return None
    first, last = choice.ranges[a]
    return [replace(choice, ranges=with_item(choice.ranges, a, cut)) for cut in ((first, b[0]), (b[0] + 1, last))]


def are_neighbours(instance, p, q):
    """Two processes of one node."""
    processes = instance.processes
    return p != q and max(p, q) < len(processes) and processes[p].node == processes[q].node


def are_twins(instance, p, q):
    if not are_neighbours(instance, p, q):
        return False
    times = [(x.wcet, x.release, x.deadline) for x in (instance.processes[p], instance.processes[q])]
    talks = any(x in (message.sender, *message.to) for message in instance.messages for x in (p, q))
    linked = instance.linked
    before = [{x for x, y in linked if y == z} for z in (p, q)]
    after = [{y for x, y in linked if x == z} for z in (p, q)]
    apart = (p, q) not in linked and (q, p) not in linked
    return times[0] == times[1] and not talks and before[0] == before[1] and after[0] == after[1] and apart


def are_silent_twins(instance, u, v):
    nodes = instance.nodes
    return (u != v and max(u, v) < len(nodes) and nodes[u].capacities == nodes[v].capacities
            and not instance.sent_by[u] and not instance.sent_by[v])


class Facts:
    """What is known at a leaf: each step has a function of its own, which answers whether it is lawful."""

    def __init__(self, instance, choice, goal):
        self.instance, self.order, self.goal = instance, choice.order, goal
        nodes = range(len(instance.nodes))
        self.cap_least = [choice.caps[n] if choice.caps[n] is not None else instance.nodes[n].capacities[0] for n in nodes]
        self.cap_most = [choice.caps[n] if choice.caps[n] is not None else instance.nodes[n].capacities[-1] for n in nodes]
        self.dur_least = [instance.duration(capacity) for capacity in self.cap_least]
        self.dur_most = [instance.duration(capacity) for capacity in self.cap_most]
        self.round_least, self.round_most = sum(self.dur_least), sum(self.dur_most)
        self.offset_least, self.offset_most = [], []
        for n in nodes:
            placed = self.order[:self.order.index(n)] if n in self.order else self.order
            others = placed if n in self.order else [u for u in nodes if u != n]
            self.offset_least.append(sum(self.dur_least[u] for u in placed))
            self.offset_most.append(sum(self.dur_most[u] for u in others))
        self.es = [0] * len(instance.processes)
        self.le = [instance.horizon] * len(instance.processes)
        self.lo = [first for first, _ in choice.ranges]
        self.top = [last + 1 for _, last in choice.ranges]
        self.bef = set(choice.pairs)
        self.channels = choice.channels
        self.closed = False

    # Extremes

    def begin_least(self, n, r):
        return r * self.round_least + self.offset_least[n]

    def begin_most(self, n, r):
        return r * self.round_most + self.offset_most[n]

    def end_least(self, n, r):
        return self.begin_least(n, r) + self.dur_least[n]

    def end_most(self, n, r):
        return self.begin_most(n, r) + self.dur_most[n]

    # What is there

    def process(self, p):
        return self.instance.processes[p] if p < len(self.instance.processes) else None

    def message(self, m):
        return self.instance.messages[m] if m < len(self.instance.messages) else None

    def link(self, l):
        return self.instance.links[l] if l < len(self.instance.links) else None

    # What is concluded

    def at_least(self, known, k, number):
        known[k] = max(known[k], min(number, self.instance.horizon + 1))
        return True

    def at_most(self, known, k, number):
        known[k] = min(known[k], max(number, 0))
        return True

    def is_before(self, p, q):
        self.bef.add((p, q))
        return True

    def closes(self, holds):
        self.closed = holds
        return holds

    # The steps

    def es_release(self, p):
        return bool(self.process(p)) and self.at_least(self.es, p, self.process(p).release)

    def es_after(self, p, q):
        return self.at_least(self.es, q, self.es[p] + self.process(p).wcet)

    def es_link(self, l):
        return bool(self.link(l)) and self.es_after(self.link(l).before, self.link(l).after)

    def es_before(self, p, q):
        return (p, q) in self.bef and self.es_after(p, q)

    def es_arrive(self, m, q):
        if not self.message(m) or q not in self.message(m).to:
            return False
        n = self.instance.sender_node(m)
        return self.at_least(self.es, q, self.end_least(n, self.lo[m]) + self.instance.copy_in)

    def ready(self, m):
        """How early a message can be copied out."""
        s = self.message(m).sender
        return self.es[s] + self.process(s).wcet + self.instance.copy_out

    def es_message(self, m, q):
        if not self.message(m) or q not in self.message(m).to:
            return False
        n = self.instance.sender_node(m)
        return self.at_least(self.es, q, self.ready(m) + self.dur_least[n] + self.instance.copy_in)

    def lo_send(self, m):
        if not self.message(m):
            return False
        short = self.ready(m) - self.offset_most[self.instance.sender_node(m)]
        return self.at_least(self.lo, m, -(-short // self.round_most))

    def le_own(self, p):
        if not self.process(p):
            return False
        return self.at_most(self.le, p, min(self.process(p).deadline, self.instance.horizon, max(self.goal - 1, 0)))

    def le_after(self, p, q):
        return self.at_most(self.le, p, self.le[q] - self.process(q).wcet)

    def le_link(self, l):
        return bool(self.link(l)) and self.le_after(self.link(l).before, self.link(l).after)

    def le_before(self, p, q):
        return (p, q) in self.bef and self.le_after(p, q)

    def le_message(self, m, q):
        if not self.message(m) or q not in self.message(m).to:
            return False
        between = self.instance.copy_in + self.dur_least[self.instance.sender_node(m)] + self.instance.copy_out
        return self.at_most(self.le, self.message(m).sender, self.le[q] - self.process(q).wcet - between)

    def le_send(self, m):
        if not self.message(m) or self.top[m] < 1:
            return False
        begin = self.begin_most(self.instance.sender_node(m), self.top[m] - 1)
        return self.at_most(self.le, self.message(m).sender, begin - self.instance.copy_out)

    def hi_arrive(self, m, q):
        if not self.message(m) or q not in self.message(m).to:
            return False
        first = self.end_least(self.instance.sender_node(m), 0) + self.instance.copy_in + self.process(q).wcet
        return self.at_most(self.top, m, (self.le[q] - first) // self.round_least + 1)

    def ord_window(self, p, q):
        if not are_neighbours(self.instance, p, q):
            return False
        return self.es[q] + self.process(q).wcet + self.process(p).wcet > self.le[p] and self.is_before(p, q)

    def ord_twin(self, p, q):
        return p < q and are_twins(self.instance, p, q) and self.is_before(p, q)

    def us_settled(self, p):
        if not self.process(p) or any(self.top[m] < 1 for m in self.instance.sent_to[p]):
            return False
        waits = [self.process(p).release]
        waits += [self.le[x] for x in self.instance.by_node[self.process(p).node]
                  if x != p and (p, x) not in self.bef and (p, x) not in self.instance.linked]
        waits += [self.end_most(self.instance.sender_node(m), self.top[m] - 1) + self.instance.copy_in
                  for m in self.instance.sent_to[p]]
        return self.at_most(self.le, p, self.process(p).wcet + max(waits))

    def x_window(self, p):
        return self.closes(bool(self.process(p)) and self.es[p] + self.process(p).wcet > self.le[p])

    def x_round(self, m):
        return self.closes(bool(self.message(m)) and self.lo[m] >= self.top[m])

    def x_cycle(self, *circle):
        turns = zip(circle, circle[1:] + circle[:1])
        return self.closes(all(turn in self.bef or turn in self.instance.waits for turn in turns))

    def x_load(self, n, a, b):
        if n >= len(self.instance.nodes) or a > b:
            return False
        load = sum(self.process(p).wcet for p in self.instance.by_node[n] if a <= self.es[p] and self.le[p] <= b)
        return self.closes(load > b - a)

    def x_frame(self, m):
        return self.closes(bool(self.message(m)) and self.message(m).bytes > self.cap_most[self.instance.sender_node(m)])

    def sent_within(self, n, a, b):
        """The messages that a node sends in rounds from a on and before b."""
        return [m for m in self.instance.sent_by[n] if a <= self.lo[m] and self.top[m] <= b]

    def x_frames(self, n, a, b):
        if n >= len(self.instance.nodes) or a > b:
            return False
        load = sum(self.message(m).bytes * (2 if self.channels[m] == BOTH else 1) for m in self.sent_within(n, a, b))
        return self.closes(load > self.instance.channels * (b - a) * self.cap_most[n])

    def x_channel(self, c, n, a, b):
        if not (self.instance.channels == 2 and c < 2) or n >= len(self.instance.nodes) or a > b:
            return False
        load = sum(self.message(m).bytes for m in self.sent_within(n, a, b) if self.channels[m] in (c, BOTH))
        return self.closes(load > (b - a) * self.cap_most[n])

    def x_late(self, m, r):
        if not self.message(m) or r >= self.lo[m]:
            return False
        n = self.instance.sender_node(m)
        if self.le[self.message(m).sender] + self.instance.copy_out > self.begin_least(n, r):
            return False
        load = sum(self.message(x).bytes for x in self.instance.sent_by[n] if x == m or self.lo[x] <= r < self.top[x])
        return self.closes(load <= self.cap_least[n])

    def x_silent(self, u, v):
        if not (u < v and are_silent_twins(self.instance, u, v) and v in self.order):
            return False
        return self.closes(u not in self.order or self.order.index(u) > self.order.index(v))

    def keeps_aside(self, k, m):
        """Whether message k is fixed to both channels, or certainly in another round than m."""
        return self.channels[k] == BOTH or self.top[k] <= self.lo[m] or self.top[m] <= self.lo[k]

    def x_mirror(self, m):
        if not self.message(m) or self.channels[m] != 1:
            return False
        lower = [k for k in self.instance.sent_by[self.instance.sender_node(m)] if k < m]
        return self.closes(all(self.keeps_aside(k, m) for k in lower))


STEP_FUNCTIONS = {word: getattr(Facts, word.decode().replace("-", "_")) for word in (*STEPS, b"x-cycle")}


def check_leaf(instance, choice, low, node):
    line, _, (goal, _), steps = node
    if goal < low:
        raise certificate_fault("C3", line)
    facts = Facts(instance, choice, goal)
    for k, step in enumerate(steps, 1):
        word, numbers = parts(step)
        if facts.closed or not STEP_FUNCTIONS[word](facts, *numbers):
            raise certificate_fault("C4", line + k)
    if not facts.closed:
        raise certificate_fault("C5", line)


def proved_bound(instance, certificate_text):
    """The bound that a certificate proves; raises Refused."""
    if len(certificate_text) > CERTIFICATE_BYTES:
        raise Refused(6, "read certificate")
    low, nodes = read_certificate(certificate_text)
    if low > instance.horizon + 1:
        raise certificate_fault("C6", 2)
    # The choices of the nodes that are still to come, the next one last.
    choices = [root(instance)]
    for node in nodes:
        line, word, numbers, _ = node
        choice = choices.pop()
        if word == b"leaf":
            check_leaf(instance, choice, low, node)
            continue
        below = children(instance, choice, word, numbers)
        if below is None:
            raise certificate_fault("C2", line)
        if len(below) != children_stated(word, numbers):
            raise certificate_fault("C1", line)
        choices += below[::-1]
    return low


def check(instance, certificate_text):
    """The line of a certificate that proves its bound; raises Refused."""
    return f"bound {proved_bound(instance, certificate_text)}"


# Certificates side by side


@contextlib.contextmanager
def of_certificate(k):
    """Tells what is wrong with one of several certificates by its number, from 0."""
    try:
        yield
    except Refused as fault:
        raise Refused(fault.status, f"join {k} {fault.line}") from fault


def ends_of(nodes):
    """Of each node the place behind its tree."""
    ends = [0] * len(nodes)
    for place in reversed(range(len(nodes))):
        _, word, numbers, _ = nodes[place]
        end = place + 1
        for _ in range(0 if word == b"leaf" else children_stated(word, numbers)):
            end = ends[end]
        ends[place] = end
    return ends


def places_below(ends, place, count):
    """The places of a branch's children."""
    place += 1
    for _ in range(count):
        yield place
        place = ends[place]


def standing(instance, choice, goal, steps):
    """The steps by which a leaf from above closes a choice: its own, or those before one that isn't lawful and a message's `x-round`."""
    facts = Facts(instance, choice, goal)
    for k, step in enumerate(steps):
        word, numbers = parts(step)
        if not STEP_FUNCTIONS[word](facts, *numbers):
            unsent = next(m for m, _ in enumerate(instance.messages) if facts.top[m] <= facts.lo[m])
            return [*steps[:k], b"x-round %d" % unsent]
    assert facts.closed
    return steps


def joined_nodes(instance, certificates):
    """The joined tree of certificates: each node's line, and those of its steps; raises Refused."""
    trees = [(low, nodes, ends_of(nodes)) for low, nodes in certificates]
    # Of each place still to come the choice, the best leaf from above, and the certificates that have a tree there; the next one last.
    places = [(root(instance), None, [(k, 0) for k in range(len(trees))])]
    while places:
        choice, best, tops = places.pop()
        own, leader = None, None
        for k, place in tops:
            _, word, (goal, *_), steps = trees[k][1][place]
            if word == b"leaf":
                if best is None or goal > best[0]:
                    best, own = (goal, steps), (k, place)
            elif leader is None or trees[k][0] > trees[leader[0]][0]:
                leader = k, place
        if own:
            with of_certificate(own[0]):
                check_leaf(instance, choice, 0, trees[own[0]][1][own[1]])
        if leader is None:
            goal, steps = best
            steps = standing(instance, choice, goal, steps)
            yield b"leaf %d %d" % (goal, len(steps)), goal, steps
            continue
        line, word, numbers, _ = trees[leader[0]][1][leader[1]]
        below = children(instance, choice, word, numbers)
        with of_certificate(leader[0]):
            if below is None:
                raise certificate_fault("C2", line)
            if len(below) != children_stated(word, numbers):
                raise certificate_fault("C1", line)
        yield b" ".join([word, *(b"%d" % number for number in numbers)]), None, []
        columns = [[(k, at) for at in places_below(trees[k][2], place, len(below))]
                   for k, place in tops if trees[k][1][place][1:3] == (word, numbers)]
        places += [(child, best, list(there)) for child, there in zip(below, zip(*columns))][::-1]


def joined(instance, texts):
    """What the certificates of these texts prove side by side, and the text of their joined one; raises Refused."""
    certificates = []
    for k, text in enumerate(texts):
        with of_certificate(k):
            if len(text) > CERTIFICATE_BYTES:
                raise Refused(6, "read certificate")
            certificates.append(read_certificate(text))
    low, lines = instance.horizon + 1, []
    for line, goal, steps in joined_nodes(instance, certificates):
        low = low if goal is None else min(low, goal)
        lines += [line, *steps]
    head = [b"ttcert %d" % instance.channels, b"low %d" % low]
    return low, b"".join(line + b"\n" for line in head + lines)


# Why there is no plan


PROGRAM = pathlib.Path(__file__).resolve().parent.parent / "ttplan"


def wrong(*words):
    return Refused(1, "why wrong", *words)


def constraints(instance):
    """Each constraint of an instance, by its kind and its index there, and the words that tell it, in the order in which they are told."""
    names = [process.name for process in instance.processes]
    if instance.horizon < TICKS_MOST:
        yield ("horizon", 0), f"horizon {instance.horizon}"
    for p, process in enumerate(instance.processes):
        if process.deadline < TICKS_MOST:
            yield ("deadline", p), f"deadline {process.name} {process.deadline}"
    for p, process in enumerate(instance.processes):
        if process.release > 0:
            yield ("release", p), f"release {process.name} {process.release}"
    for m, message in enumerate(instance.messages):
        yield ("message", m), f"message {message.name}"
    for m, message in enumerate(instance.messages):
        if message.both:
            yield ("both", m), f"both {message.name}"
    for k, link in enumerate(instance.links):
        yield ("link", k), f"link {names[link.before]} {names[link.after]}"


def told_constraints(instance, lines):
    """The constraints that lines tell, each once and with its word: those that are needed in any order, and behind them the others in that of
    the instance; raises Refused."""
    if not lines:
        raise wrong("lines")
    if lines == ["need nothing"]:
        return []
    told, others = [], []
    for line in lines:
        word, _, words = line.partition(" ")
        before = {constraint for _, constraint, _ in told}
        constraint = next((constraint for constraint, there in constraints(instance) if there == words and constraint not in before), None)
        others += [words] if word == "maybe" else []
        if word not in ("need", "maybe") or constraint is None or word == "need" and others:
            raise wrong(f"line '{line}'")
        told.append((word, constraint, words))
    places = [words for _, words in constraints(instance)]
    if others != sorted(others, key=places.index):
        raise wrong("order")
    return told


def instance_text(cluster, nodes, processes, links, messages):
    """A text that states an instance of these."""
    names = [process.name for process in processes]
    tables = [("[cluster]", cluster)]
    tables += [("[[node]]", {"name": node.name, "capacities": node.capacities}) for node in nodes]
    tables += [("[[process]]", vars(process) | {"node": nodes[process.node].name}) for process in processes]
    tables += [("[[link]]", {"from": names[link.before], "to": names[link.after]}) for link in links]
    tables += [("[[message]]", {
        "name": message.name, "from": names[message.sender], "to": [names[q] for q in message.to], "bytes": message.bytes,
        "both": message.both}) for message in messages]
    # Names are letters, digits and underscores, so that TOML writes these values as JSON does.
    return "".join(f"{head}\n" + "".join(f"{key} = {json.dumps(value)}\n" for key, value in table.items()) for head, table in tables).encode()


def only(instance, kept):
    """The instance by these of its constraints alone."""
    processes = [replace(process, deadline=process.deadline if ("deadline", p) in kept else TICKS_MOST,
                         release=process.release if ("release", p) in kept else 0)
                 for p, process in enumerate(instance.processes)]
    links = [link for k, link in enumerate(instance.links) if ("link", k) in kept]
    messages = [replace(message, both=("both", m) in kept)
                for m, message in enumerate(instance.messages) if ("message", m) in kept]
    horizon = instance.horizon if ("horizon", 0) in kept else TICKS_MOST
    return Instance(instance_text(instance.cluster | {"horizon": horizon}, instance.nodes, processes, links, messages))


def later(instance, ticks):
    """The instance with its horizon and its deadlines so many ticks later."""
    processes = [replace(process, deadline=min(process.deadline + ticks, TICKS_MOST)) for process in instance.processes]
    cluster = instance.cluster | {"horizon": min(instance.horizon + ticks, TICKS_MOST)}
    return Instance(instance_text(cluster, instance.nodes, processes, instance.links, instance.messages))


def are_same(one, other):
    return all(getattr(one, part) == getattr(other, part) for part in ("cluster", "nodes", "processes", "links", "messages"))


def text_of(instance):
    return instance_text(instance.cluster, instance.nodes, instance.processes, instance.links, instance.messages)


def asked(*words):
    """What ttplan writes, and its status."""
    done = subprocess.run([PROGRAM, *words], capture_output=True)
    return done.stdout, done.stderr.decode(errors="replace").rstrip("\n"), done.returncode


def has_plan(instance, folder):
    """Whether ttplan finds a plan, which is judged here; raises Refused."""
    path = folder / "instance.toml"
    path.write_bytes(text_of(instance))
    return given_delay(instance, asked("solve", path, "--until", str(TICKS_MOST))[0]) is not None


def is_shown_without(instance, folder):
    """Whether ttplan finds that there is no plan, by a certificate that is judged here; raises Refused."""
    path, certificate = folder / "instance.toml", folder / "instance.cert"
    path.write_bytes(text_of(instance))
    status = asked("solve", path, "--cert", certificate)[2]
    return status == 10 and proved_bound(instance, certificate.read_bytes()) == instance.horizon + 1


def judge_conflict(instance, lines, reduced_text, certificate_text, folder):
    """Judges the constraints that are told to leave no plan; raises Refused."""
    told = told_constraints(instance, lines)
    kept = {constraint for _, constraint, _ in told}
    reduced = only(instance, kept)
    if not are_same(reduced, Instance(reduced_text)):
        raise wrong("reduced")
    if proved_bound(reduced, certificate_text) != reduced.horizon + 1:
        raise wrong("certificate")
    for word, constraint, words in told:
        if word == "need" and not has_plan(only(instance, kept - {constraint}), folder):
            raise wrong(word, words)


def judge_late(instance, late, folder):
    """Judges how many ticks later all has to end: there is a plan then, and none a tick before; or none however late. Raises Refused."""
    low, *high = late.split()[1:]
    reached = high[0] if high else low
    before = TICKS_MOST if low == "-" else int(low) - 1
    if reached != "-" and not has_plan(later(instance, int(reached)), folder):
        raise wrong(late)
    if not is_shown_without(later(instance, before), folder):
        raise wrong(late)


def judge_answer(instance, answer, reduced, certificate, folder):
    """Judges what is told behind the first line; raises Refused."""
    what, *lines = answer.split("\n")
    late = lines.pop() if lines and lines[-1].startswith("late ") else None
    if what == "none":
        judge_conflict(instance, lines, reduced.read_bytes(), certificate.read_bytes(), folder)
    elif lines or not (what == "unknown" or what.startswith("plan ") and has_plan(instance, folder)):
        raise wrong(what)
    if late:
        judge_late(instance, late, folder)


def file_named(words, option, folder):
    """The file that an option names, or else one in the folder, and the words that name it."""
    for k, word in enumerate(words):
        if word == option and k + 1 < len(words):
            return pathlib.Path(words[k + 1]), []
        if word.startswith(f"{option}="):
            return pathlib.Path(word.removeprefix(f"{option}=")), []
    path = folder / option.strip("-")
    return path, [option, path]


def why(words):
    """What `ttplan why` says with these words, once it is judged, and its status; raises Refused, also as that refuses."""
    with tempfile.TemporaryDirectory(prefix="ttplan-") as name:
        folder = pathlib.Path(name)
        reduced, more = file_named(words, "--reduced", folder)
        certificate, most = file_named(words, "--cert", folder)
        out, error, status = asked("why", *words, *more, *most)
        if status not in (0, 3, 10, 11):
            raise Refused(status, error)
        with opened(words[0], "instance") as file:
            instance = Instance(taken(file, "instance", INSTANCE_BYTES))
        head, _, answer = out.decode().rstrip("\n").partition("\n")
        if head != "ttwhy 1" or status != {"plan": 0, "none": 10, "unknown": 11}.get(answer.split()[0]):
            raise wrong(head, status)
        judge_answer(instance, answer, reduced, certificate, folder)
        return f"{head}\n{answer}", status


# Several rates


CHAINS_MOST, THROUGH_MOST, CYCLES_SEEN = 64, 32, 6


@dataclass
class Recurring:
    """A process that runs once in each period, within its release and its deadline there."""

    name: str
    node: int
    wcet: int
    period: int
    release: int
    deadline: int


@dataclass
class Way:
    """What leads a value from one process to another on its node: of this period, or of the one before."""

    before: int
    after: int
    delay: int


@dataclass
class Sent:
    name: str
    sender: int
    to: list
    bytes: int
    both: bool
    delay: int


@dataclass
class Chain:
    name: str
    through: list
    age: int


class Rates:
    """The cluster with several periods that a text states, or the first thing that is wrong with it."""

    def __init__(self, text):
        if len(text) > INSTANCE_BYTES:
            raise Refused(6, "read rates")
        top = Table(parse(text, "rates"), "top", ("cluster", "node", "process", "link", "message", "chain"), "rates")
        cluster = top.value("cluster", dict)
        lists = {key: list(top.items(key, dict, missing)) for key, missing in
                 (("node", None), ("process", None), ("link", []), ("message", []), ("chain", []))}
        self.read_cluster(cluster)
        self.nodes = [self.read_node(table) for table in self.tables(lists, "node", "name", "capacity")]
        nodes = indices_of(self.nodes)
        keys = "name", "node", "wcet", "period", "release", "deadline"
        self.processes = [self.read_process(table, nodes) for table in self.tables(lists, "process", *keys)]
        names = indices_of(self.processes)
        self.links = [Way(table.index("from", names), table.index("to", names), table.number("delay", 0))
                      for table in self.tables(lists, "link", "from", "to", "delay")]
        keys = "name", "from", "to", "bytes", "both", "delay"
        self.messages = [self.read_message(table, names) for table in self.tables(lists, "message", *keys)]
        self.chains = [self.read_chain(table, names) for table in self.tables(lists, "chain", "name", "through", "age")]
        self.slots, self.finer = self.round, 1
        if self.asked is not None and self.nodes and self.asked >= self.slots:
            self.share_rest(self.asked - self.slots)
        for code, place in self.faults():
            raise Refused(3, "rates", code, *place)

    def share_rest(self, rest):
        """Tells all times in ticks so fine that each slot has a whole share of what is left of the round that is asked for."""
        self.finer = len(self.nodes) // math.gcd(len(self.nodes), rest)
        for key in self.cluster:
            self.cluster[key] *= 1 if key == "channels" else self.finer
        self.cluster["trail"] += rest * self.finer // len(self.nodes)
        self.store *= self.finer
        for process in self.processes:
            process.wcet, process.period = process.wcet * self.finer, process.period * self.finer
            process.release, process.deadline = process.release * self.finer, process.deadline * self.finer
        for chain in self.chains:
            chain.age *= self.finer
        del self.round

    def tables(self, lists, word, *keys):
        return (Table(members, f"{word} {k}", keys, "rates") for k, members in enumerate(lists[word]))

    def read_cluster(self, members):
        needed = [key for key in CLUSTER_KEYS if key != "horizon"]
        table = Table(members, "cluster", (*needed, "channels", "store", "round"), "rates")
        self.cluster = {key: table.number(key) for key in needed} | {"channels": table.number("channels", 1)}
        self.store = table.number("store", 1)
        self.asked = table.number("round") if "round" in members else None

    def read_node(self, table):
        return Node(table.value("name", str), [table.number("capacity")])

    def read_process(self, table, nodes):
        name, node, wcet = table.value("name", str), table.index("node", nodes), table.number("wcet")
        period, release = table.number("period"), table.number("release", 0)
        return Recurring(name, node, wcet, period, release, table.number("deadline", period))

    def read_message(self, table, names):
        return Sent(table.value("name", str), table.index("from", names),
                    [table.named("to", name, names) for name in table.items("to", str)],
                    table.number("bytes"), table.value("both", bool, False), table.number("delay", 0))

    def read_chain(self, table, names):
        return Chain(table.value("name", str), [table.named("through", name, names) for name in table.items("through", str)],
                     table.number("age"))

    def faults(self):
        """The codes J1 to J10 with their places, the one that is told first."""
        yield from self.faults_of_lengths()
        named = (("node", self.nodes), ("process", self.processes), ("message", self.messages), ("chain", self.chains))
        for word, things in named:
            for k, thing in enumerate(things):
                if not NAME.fullmatch(thing.name.encode()):
                    yield "J2", (word, k)
        for word, things in named:
            for k, thing in enumerate(things):
                if indices_of(things)[thing.name] < k:
                    yield "J3", (word, k)
        yield from self.faults_of_times()
        for k, chain in enumerate(self.chains):
            for at, (p, q) in enumerate(itertools.pairwise(chain.through)):
                if not self.delays(p, q):
                    yield "J7", ("chain", k, at + 1)
        if self.asked is not None and self.asked < self.slots:
            yield "J8", (self.slots, self.asked)
        if self.cycle > TICKS_MOST:
            yield "J9", ()
        if self.round > self.cycle:
            yield "J10", (self.round, self.cycle)

    def faults_of_lengths(self):
        lists = (("node", self.nodes, 1, 32), ("process", self.processes, 1, 256), ("link", self.links, 0, 1024),
                 ("message", self.messages, 0, 512), ("chain", self.chains, 0, CHAINS_MOST))
        for word, things, least, most in lists:
            if not least <= len(things) <= most:
                yield "J1", (word,)
        for k, message in enumerate(self.messages):
            if not message.to:
                yield "J1", ("message", k)
        for k, chain in enumerate(self.chains):
            if not 2 <= len(chain.through) <= THROUGH_MOST:
                yield "J1", ("chain", k)

    def faults_of_times(self):
        """J5 and J6."""
        if not 1 <= self.store <= TICKS_MOST or self.asked is not None and not 1 <= self.asked <= TICKS_MOST:
            yield "J5", ("cluster",)
        for word, things, right in (
                ("process", self.processes, lambda process: 1 <= process.period <= TICKS_MOST),
                ("link", self.links, lambda link: link.delay <= 1), ("message", self.messages, lambda message: message.delay <= 1),
                ("chain", self.chains, lambda chain: 1 <= chain.age <= TICKS_MOST)):
            for k, thing in enumerate(things):
                if not right(thing):
                    yield "J5", (word, k)
        for k, process in enumerate(self.processes):
            if not process.release + process.wcet <= process.deadline <= process.period:
                yield "J6", ("process", k)

    @functools.cached_property
    def cycle(self):
        return math.lcm(*(process.period for process in self.processes))

    @functools.cached_property
    def round(self):
        slot = self.cluster["lead"] + self.cluster["head"] + self.cluster["trail"]
        return sum(slot + self.cluster["per_byte"] * node.capacities[0] for node in self.nodes)

    @functools.cached_property
    def rounds(self):
        """How many whole rounds a cycle holds; where a round takes no time the cluster is refused anyway."""
        return self.cycle // self.round if self.round else 0

    def jobs(self, p):
        """How many jobs a process has in a cycle."""
        return self.cycle // self.processes[p].period

    def read_job(self, q, job, p, delay):
        """Which job of p a job of q reads, both counted from the first cycle on, and below 0 before it."""
        return job * self.processes[q].period // self.processes[p].period - delay

    def delays(self, p, q):
        """By how many periods late q reads what p says, by each way there is."""
        return ([link.delay for link in self.links if (link.before, link.after) == (p, q)]
                + [message.delay for message in self.messages if message.sender == p and q in message.to])

    def carried(self, chain, job):
        """Which job of a chain's first process it is whose value a job of its last one carries, and by the oldest way."""
        for p, q in reversed(list(itertools.pairwise(chain.through))):
            job = self.read_job(q, job, p, max(self.delays(p, q)))
        return job

    def released(self, p, job):
        return job * self.processes[p].period + self.processes[p].release


class Unrolled:
    """The instance of a cluster with several periods, or the first thing that is wrong with that, and what its processes and messages
    are: jobs of a process, stores of a message on a node, jobs of a message's sender."""

    def __init__(self, rates):
        self.rates = rates
        self.end = rates.rounds * rates.round
        if sum(rates.jobs(p) for p in range(len(rates.processes))) > 256:
            raise Refused(3, "rates M1 process")
        self.jobs = [(p, job) for p in range(len(rates.processes)) for job in range(rates.jobs(p))]
        self.stores = [(m, n) for m, message in enumerate(rates.messages) if message.delay
                       for n in dict.fromkeys(rates.processes[q].node for q in message.to)]
        self.place = {job: place for place, job in enumerate(self.jobs)}
        self.store_place = {store: len(self.jobs) + place for place, store in enumerate(self.stores)}
        self.sent = [(m, job) for m, message in enumerate(rates.messages) for job in range(rates.jobs(message.sender))
                     if self.receivers(m, job)]
        cluster = {key: self.end if key == "horizon" else rates.cluster[key] for key in (*CLUSTER_KEYS, "channels")}
        processes = [self.job(p, job) for p, job in self.jobs] + [self.stored(m, n) for m, n in self.stores]
        messages = [self.message(m, job) for m, job in self.sent]
        self.instance = Instance.of(cluster, rates.nodes, processes, list(self.links()), messages)
        for code, place in self.instance.faults():
            raise Refused(3, "rates", code, *self.named(code, place))
        self.instance.settle()

    def named(self, code, place):
        """A place with names where it has indices."""
        names = {word: [thing.name for thing in things] for word, things in (
            ("node", self.instance.nodes), ("process", self.instance.processes), ("message", self.instance.messages))}
        if code == "M13":
            return [names["process"][p] for p in place]
        if place[:1] == ("link",) and len(place) > 1:
            link = self.instance.links[place[1]]
            return ["link", names["process"][link.before], names["process"][link.after]]
        return [*place[:1], *(names[place[0]][k] for k in place[1:])]

    def job_name(self, name, p, job):
        return name if self.rates.jobs(p) == 1 else f"{name}_{job}"

    def job(self, p, job):
        process = self.rates.processes[p]
        deadline = min([job * process.period + process.deadline, self.end] + [
            max(chain.age + self.rates.released(chain.through[0], self.rates.carried(chain, job)), 0)
            for chain in self.rates.chains if chain.through[-1] == p])
        return Process(self.job_name(process.name, p, job), process.node, process.wcet, self.rates.released(p, job), deadline)

    def stored(self, m, n):
        return Process(f"{self.rates.messages[m].name}_at_{self.rates.nodes[n].name}", n, self.rates.store, 0, self.end)

    def links(self):
        for link in self.rates.links:
            for job in range(self.rates.jobs(link.after) if link.delay == 0 else 0):
                read = self.rates.read_job(link.after, job, link.before, 0)
                yield Link(self.place[link.before, read], self.place[link.after, job])

    def receivers(self, m, job):
        """The jobs and stores that a message goes to from a job of its sender."""
        message, jobs = self.rates.messages[m], self.rates.jobs(self.rates.messages[m].sender)
        reads = [(q, reader, self.rates.read_job(q, reader, message.sender, message.delay))
                 for q in message.to for reader in range(self.rates.jobs(q))]
        now = [self.place[q, reader] for q, reader, read in reads if read == job]
        later = dict.fromkeys(self.store_place[m, self.rates.processes[q].node] for q, _, read in reads if read < 0 and read + jobs == job)
        return now + list(later)

    def message(self, m, job):
        message = self.rates.messages[m]
        return Message(self.job_name(message.name, message.sender, job), self.place[message.sender, job], self.receivers(m, job),
                       message.bytes, message.both)


def told_instance(instance):
    """The text of an instance as ttplan writes it."""
    names = [process.name for process in instance.processes]
    tables = [("[cluster]", instance.cluster | {"channels": instance.channels if instance.channels > 1 else None})]
    tables += [("[[node]]", vars(node)) for node in instance.nodes]
    tables += [("[[process]]", vars(process) | {
        "node": instance.nodes[process.node].name, "release": process.release or None,
        "deadline": process.deadline if process.deadline < TICKS_MOST else None}) for process in instance.processes]
    tables += [("[[link]]", {"from": names[link.before], "to": names[link.after]}) for link in instance.links]
    tables += [("[[message]]", {
        "name": message.name, "from": names[message.sender], "to": [names[q] for q in message.to], "bytes": message.bytes,
        "both": message.both or None}) for message in instance.messages]
    return "\n".join(f"{head}\n" + "".join(f"{key} = {json.dumps(value)}\n" for key, value in table.items() if value is not None)
                     for head, table in tables)


def unrolled_text(text):
    """The text of the instance of a cluster with several periods; raises Refused."""
    return told_instance(Unrolled(Rates(text)).instance).removesuffix("\n")


class Repeated:
    """Six cycles of a cluster with several periods by a plan, and more where data is older than that: told by jobs that are counted from the
    first cycle on, and by ticks from its begin. The rules of instances and what is valid by them stand nowhere here."""

    def __init__(self, unrolled, plan):
        self.rates, rates = unrolled.rates, unrolled.rates
        self.plan, self.period, self.end = plan, rates.cycle, unrolled.end
        self.start = dict(zip(unrolled.jobs, plan.starts))
        self.stored = dict(zip(unrolled.stores, plan.starts[len(unrolled.jobs):]))
        self.sent = dict(zip(unrolled.sent, zip(plan.rounds, plan.channels)))
        slot = rates.cluster["lead"] + rates.cluster["head"] + rates.cluster["trail"]
        self.slot = [slot + rates.cluster["per_byte"] * capacity for capacity in plan.caps]
        self.begin = {n: sum(self.slot[u] for u in plan.order[:k]) for k, n in enumerate(plan.order)}
        back = min([rates.carried(chain, 0) * rates.processes[chain.through[0]].period for chain in rates.chains], default=0)
        self.cycles = CYCLES_SEEN - back // self.period

    def absolute(self, p, job):
        """When a job starts and ends, by its number from the first cycle on."""
        cycle, job = divmod(job, self.rates.jobs(p))
        start = cycle * self.period + self.start[p, job]
        return start, start + self.rates.processes[p].wcet

    def all_jobs(self, p, cycles=None):
        return range((cycles or self.cycles) * self.rates.jobs(p))

    def slots(self, m, job):
        """The cycle of a message of a job, its node, its round and channel, and when its slot begins and ends."""
        cycle, within = divmod(job, self.rates.jobs(self.rates.messages[m].sender))
        node = self.rates.processes[self.rates.messages[m].sender].node
        r, channel = self.sent[m, within]
        begin = cycle * self.period + r * sum(self.slot) + self.begin[node]
        return cycle, node, r, channel, begin, begin + self.slot[node]

    def read_from(self, m):
        """By which job of which process each message's value is read, by the job that sends it."""
        message, read = self.rates.messages[m], {}
        for q in message.to:
            for job in self.all_jobs(q, self.cycles + 1):
                sender = self.rates.read_job(q, job, message.sender, message.delay)
                if 0 <= sender < self.cycles * self.rates.jobs(message.sender):
                    read.setdefault(sender, []).append((q, job))
        return read

    def faults(self):
        """What isn't right in a cycle."""
        if any(capacity != node.capacities[0] for capacity, node in zip(self.plan.caps, self.rates.nodes)):
            yield ("capacity",)
        yield from self.faults_of_runs()
        for link in self.rates.links:
            for job in self.all_jobs(link.after):
                read = self.rates.read_job(link.after, job, link.before, link.delay)
                if read >= 0 and self.absolute(link.before, read)[1] > self.absolute(link.after, job)[0]:
                    yield "link", link.before, link.after, job
        yield from self.faults_of_messages()
        for k, chain in enumerate(self.rates.chains):
            if any(age > chain.age for age in self.ages(chain)):
                yield "age", k

    def faults_of_runs(self):
        """Jobs and stores outside their time, and two of one node at a time."""
        runs = {n: [] for n in range(len(self.rates.nodes))}
        for p, process in enumerate(self.rates.processes):
            for job in self.all_jobs(p):
                start, end = self.absolute(p, job)
                begin, cycle = job * process.period, job // self.rates.jobs(p) * self.period
                if not begin + process.release <= start <= end <= min(begin + process.deadline, cycle + self.end):
                    yield "time", p, job
                runs[process.node].append((start, end))
        for (m, n), start in self.stored.items():
            if start + self.rates.store > self.end:
                yield "store", m, n
            runs[n] += [(c * self.period + start, c * self.period + start + self.rates.store) for c in range(self.cycles)]
        for n, there in runs.items():
            for (_, end), (start, _) in itertools.pairwise(sorted(there)):
                if start < end:
                    yield "node", n, start

    def faults_of_messages(self):
        """Messages that aren't ready, come late, or are on a wrong channel, and frames that are too full."""
        frames = {}
        for m, message in enumerate(self.rates.messages):
            for sender, readers in self.read_from(m).items():
                cycle, node, r, channel, begin, end = self.slots(m, sender)
                if r >= self.rates.rounds:
                    yield "round", m, sender
                if self.absolute(message.sender, sender)[1] + self.rates.cluster["copy_out"] > begin:
                    yield "ready", m, sender
                arrived = end + self.rates.cluster["copy_in"]
                if any(arrived > self.needed(m, cycle, q, job) for q, job in readers):
                    yield "arrived", m, sender
                if channel > BOTH or self.rates.cluster["channels"] == 1 and channel or message.both and channel != BOTH:
                    yield "channel", m, sender
                for c in (0, 1) if channel == BOTH else (channel,):
                    frames[cycle, r, node, c] = frames.get((cycle, r, node, c), 0) + message.bytes
        for (cycle, r, node, c), together in frames.items():
            if together > self.rates.nodes[node].capacities[0]:
                yield "frame", cycle, r, node, c

    def needed(self, m, cycle, q, job):
        """By when a reader has to have a message that is sent in a cycle: its start, or that of its store where it is in the next."""
        if job // self.rates.jobs(q) == cycle:
            return self.absolute(q, job)[0]
        return cycle * self.period + self.stored[m, self.rates.processes[q].node]

    def ages(self, chain):
        """The age of each job of a chain's last process that carries a value of these cycles."""
        for job in self.all_jobs(chain.through[-1]):
            carried = self.rates.carried(chain, job)
            if carried >= 0:
                yield self.absolute(chain.through[-1], job)[1] - self.rates.released(chain.through[0], carried)

    def lines(self):
        """The greatest jitter and response of each process and the greatest age of each chain."""
        for p, process in enumerate(self.rates.processes):
            starts = [self.absolute(p, job)[0] - job * process.period for job in self.all_jobs(p)]
            response = max(starts) + process.wcet - process.release
            yield f"process {process.name} {max(starts) - min(starts)} {response}"
        for chain in self.rates.chains:
            yield f"chain {chain.name} {max(self.ages(chain))} {chain.age}"


def repeated_lines(rates, plan_text):
    """How a cluster with several periods repeats, and what a plan means in all its cycles; raises Refused."""
    unrolled = Unrolled(rates)
    length, cycle = rates.round, rates.cycle
    yield from ("ttrepeat 1", f"finer {rates.finer}", f"period {cycle}", f"round {length}", f"rounds {rates.rounds}", f"gap {cycle - unrolled.end}")
    if cycle > unrolled.end:
        dividing = [ticks for ticks in range(1, cycle + 1) if cycle % ticks == 0]
        yield f"near {max(ticks for ticks in dividing if ticks <= length)} {min(ticks for ticks in dividing if ticks >= length)}"
    for word, things in ("processes", unrolled.instance.processes), ("links", unrolled.instance.links), ("messages", unrolled.instance.messages):
        yield f"{word} {len(things)}"
    if plan_text is not None:
        repeated = Repeated(unrolled, verified(unrolled.instance, plan_text))
        for fault in repeated.faults():
            raise Refused(1, "repeat wrong", *fault)
        yield from repeated.lines()


def unroll(paths):
    """The same of a file; raises Refused."""
    with opened(paths[0], "rates") as rates:
        return unrolled_text(taken(rates, "rates", INSTANCE_BYTES)), 0


def repeat(paths):
    """The same of files; raises Refused."""
    with contextlib.ExitStack() as files:
        texts = [files.enter_context(opened(path, what)) for path, what in zip(paths, ("rates", "plan"))]
        rates = Rates(taken(texts[0], "rates", INSTANCE_BYTES))
        return "\n".join(repeated_lines(rates, taken(texts[1], "plan", PLAN_BYTES) if texts[1:] else None)), 0


# The least age of a chain


def with_age(rates, k, age):
    """The cluster in which what a chain carries may be so old."""
    other = copy.copy(rates)
    other.chains = [replace(chain, age=age) if x == k else chain for x, chain in enumerate(rates.chains)]
    return other


def job_without_room(unrolled, k, age):
    """The first job that doesn't end in time, if it starts at its release, where what a chain carries may be so old; none where each does."""
    rates, chain = unrolled.rates, unrolled.rates.chains[k]
    for (p, job), process in zip(unrolled.jobs, unrolled.instance.processes):
        latest = age + rates.released(chain.through[0], rates.carried(chain, job)) if p == chain.through[-1] else process.deadline
        if process.release + process.wcet > min(process.deadline, latest):
            return process.name
    return None


def judge_age(unrolled, k, plan, age):
    """Judges that a plan is right for ever, and how old what a chain carries is in it; raises Refused."""
    repeated = Repeated(unrolled, plan)
    for fault in repeated.faults():
        raise Refused(5, "age repeat", *fault)
    if (own := max(repeated.ages(unrolled.rates.chains[k]))) != age:
        raise Refused(5, "age own", own)


def judge_younger(rates, k, age, certificate_text, reduced_text):
    """Judges that there is no plan with an age; raises Refused."""
    younger = Unrolled(with_age(rates, k, age)).instance
    if reduced_text is not None and not are_same(younger, Instance(reduced_text)):
        raise Refused(5, "age reduced")
    if (low := proved_bound(younger, certificate_text)) != younger.horizon + 1:
        raise Refused(5, "age bound", low)


def aged(rates, answer, certificate_text, reduced_text, k):
    """What an answer shows of how old what a chain carries has to be, and the status; raises Refused. That no plan is valid, or that none was
    found, is shown by nothing."""
    line, _, rest = answer.partition(b"\n")
    form = re.fullmatch(rb"none|age (\d+)( window (\w+))?|between (\d+) (\d+|none)", line)
    if not form or bool(rest) != (line != b"none" and form[5] != b"none"):
        raise Refused(5, "age form")
    unrolled = Unrolled(with_age(rates, k, TICKS_MOST))
    if rest:
        judge_age(unrolled, k, verified(unrolled.instance, rest, lines_before=1), int(form[1] or form[5]))
    if form[1] and not form[2]:
        judge_younger(rates, k, int(form[1]) - 1, certificate_text, reduced_text)
        return line.decode(), 0
    if certificate_text or reduced_text:
        raise Refused(5, "age beside")
    if form[2] and (full := job_without_room(unrolled, k, int(form[1]) - 1)) != form[3].decode():
        raise Refused(5, "age window", full or "none")
    if form[4] and job_without_room(unrolled, k, int(form[4])):
        raise Refused(5, "age low")
    if form[4] and form[5] != b"none" and not int(form[4]) < int(form[5]):
        raise Refused(5, "age apart")
    return line.decode(), 10 if line == b"none" else 0 if form[1] else 11


def age(paths, words):
    """The same of files; raises Refused."""
    reduced_text, words = reduced_in(words, 1)
    with (opened(paths[0], "rates") as rates, opened(paths[1], "plan") as answer, opened(paths[2], "certificate") as certificate):
        judged = Rates(taken(rates, "rates", INSTANCE_BYTES))
        found = [k for k, chain in enumerate(judged.chains) if [chain.name] == words]
        if not found:
            raise Refused(5, "age name")
        return aged(judged, taken(answer, "plan", PRINTED_BYTES), taken(certificate, "certificate", CERTIFICATE_BYTES), reduced_text, found[0])


# The program


USAGE = ("usage: second_check.py verify INSTANCE PLAN | check INSTANCE CERT | judge INSTANCE PLAN CERT"
         " | join INSTANCE CERT CERT.. [--cert FILE]"
         " | schedule INSTANCE PLAN [--table TABLE] | draw INSTANCE PLAN [--width PX] [--used]"
         " | tables INSTANCE PLAN [--rounds N] | period INSTANCE PLAN PERIOD"
         " | replay INSTANCE PLAN [LOSS].."
         " | compare OLD_INSTANCE OLD_PLAN NEW_INSTANCE NEW_PLAN | limit INSTANCE ANSWER CERT [--reduced FILE] PROCESS.."
         " | margin INSTANCE ANSWER CERT [--reduced FILE] [--permille] [--within D] [PROCESS].. | why INSTANCE [OPTION].."
         " | unroll RATES | repeat RATES [PLAN] | age RATES ANSWER CERT [--reduced FILE] CHAIN")
COMMANDS = {"verify": (verify, "plan", PLAN_BYTES), "check": (check, "certificate", CERTIFICATE_BYTES),
            "tables": (tables, "plan", PLAN_BYTES)}


def opened(path, what):
    try:
        return open(path, "rb")
    except OSError as fault:
        raise Refused(6, f"read {what}") from fault


def taken(file, what, limit):
    """The bytes of a file: of one over its limit, one more than that."""
    try:
        return file.read(limit + 1)
    except OSError as fault:
        raise Refused(6, f"read {what}") from fault


def judgement(instance, delay, low):
    """What a certificate's bound says of what is given in a plan's place, and the status."""
    if delay is None:
        return ("none", 10) if low == instance.horizon + 1 else (f"between {low} none", 11)
    return (f"least {delay}", 0) if low == delay else (f"between {low} {delay}", 11)


def judge(paths):
    """The same of files; raises Refused."""
    with (opened(paths[0], "instance") as instance, opened(paths[1], "plan") as plan,
          opened(paths[2], "certificate") as certificate):
        judged = Instance(taken(instance, "instance", INSTANCE_BYTES))
        delay = given_delay(judged, taken(plan, "plan", PRINTED_BYTES))
        return judgement(judged, delay, proved_bound(judged, taken(certificate, "certificate", CERTIFICATE_BYTES)))


def join(words):
    """The bound that the certificates of files prove side by side, whose joined one is written where a file is named for it."""
    words, made = (words[:-2], words[-1]) if words[-2:-1] == ["--cert"] else (words, None)
    if len(words) < 3 or made in words:
        raise Refused(2, USAGE)
    with contextlib.ExitStack() as files:
        instance = files.enter_context(opened(words[0], "instance"))
        certificates = []
        for k, path in enumerate(words[1:]):
            with of_certificate(k):
                certificates.append(files.enter_context(opened(path, "certificate")))
        judged = Instance(taken(instance, "instance", INSTANCE_BYTES))
        texts = []
        for k, certificate in enumerate(certificates):
            with of_certificate(k):
                texts.append(taken(certificate, "certificate", CERTIFICATE_BYTES))
        low, text = joined(judged, texts)
    if made is not None:
        try:
            pathlib.Path(made).write_bytes(text)
        except OSError as fault:
            raise Refused(6, "write certificate") from fault
    return f"bound {low}", 0


def chosen_by(instance, names, command="limit"):
    """The processes of these names, each once; raises Refused."""
    known = {process.name: p for p, process in enumerate(instance.processes)}
    for k, name in enumerate(names):
        if name not in known or name in names[:k]:
            raise Refused(5, f"{command} name {k}")
    return [known[name] for name in names]


def with_deadlines(instance, chosen, tick):
    """The instance in which these processes have to end by a tick."""
    cut = copy.copy(instance)
    cut.processes = [replace(process, deadline=min(process.deadline, tick)) if p in chosen else process
                     for p, process in enumerate(instance.processes)]
    return cut


def judge_searched(searched, reduced_text):
    """Judges the text of the instance that a certificate is for, where there is one; raises Refused."""
    if reduced_text is not None and not are_same(searched, Instance(reduced_text)):
        raise Refused(5, "limit reduced")


def limited(instance, answer, certificate_text, reduced_text, chosen):
    """What an answer and its certificate show of the ends of these processes, and the status; raises Refused. That the end can't be
    earlier is shown by no certificate."""
    line, _, rest = answer.partition(b"\n")
    form = re.fullmatch(rb"none|limit (\d+)|between (\d+) (none|\d+)", line)
    if not form or bool(rest) != (line != b"none" and form[3] != b"none"):
        raise Refused(5, "limit form")
    if not rest:
        judge_searched(instance, reduced_text)
        low = proved_bound(instance, certificate_text)
        if line == b"none" and low != instance.horizon + 1:
            raise Refused(5, "limit bound", low)
        return line.decode(), 10 if line == b"none" else 11
    plan = verified(instance, rest, lines_before=1)
    last = max(plan.starts[p] + instance.processes[p].wcet for p in chosen)
    if last != int(form[1] or form[3]):
        raise Refused(5, "limit end", last)
    # a search that was stopped was for an end half way
    tick = last if form[1] else int(form[2]) + (last - int(form[2])) // 2
    searched = with_deadlines(instance, chosen, tick)
    judge_searched(searched, reduced_text)
    low = proved_bound(searched, certificate_text)
    return line.decode(), 0 if form[1] and low == plan.delay else 11


def reduced_in(words, behind):
    """The text of the file that is named behind `--reduced`, where that goes first and so many words are behind, and these; raises Refused."""
    if words[:1] != ["--reduced"] or len(words) < 2 + behind:
        return None, words
    with opened(words[1], "reduced") as reduced:
        return taken(reduced, "reduced", INSTANCE_BYTES), words[2:]


def limit(paths, words):
    """The same of files; raises Refused."""
    reduced_text, names = reduced_in(words, 1)
    with (opened(paths[0], "instance") as instance, opened(paths[1], "plan") as answer,
          opened(paths[2], "certificate") as certificate):
        judged = Instance(taken(instance, "instance", INSTANCE_BYTES))
        chosen = chosen_by(judged, names)
        return limited(judged, taken(answer, "plan", PRINTED_BYTES),
                       taken(certificate, "certificate", CERTIFICATE_BYTES), reduced_text, chosen)


# Longer runs


@dataclass
class Runs:
    """Which processes run longer, whether by thousandths, and by which tick all has to end."""

    chosen: list
    permille: bool
    within: int


def within(instance, tick):
    """The instance in which all has to end by a tick."""
    cut = copy.copy(instance)
    cut.cluster = instance.cluster | {"horizon": min(instance.horizon, tick)}
    cut.horizon = cut.cluster["horizon"]
    return cut


def longer(instance, runs, number):
    """The instance in which these processes run longer with a number."""
    grown = copy.copy(instance)
    grown.processes = [
        replace(process, wcet=process.wcet + (-(-process.wcet * number // 1000) if runs.permille else number)) if p in runs.chosen else process
        for p, process in enumerate(instance.processes)]
    return grown


def without_room(instance, runs, number):
    """The first process that has no room for a number between its release and when it has to end; none where each has."""
    there = longer(instance, runs, number).processes
    return next((p for p, it in enumerate(there) if it.release + it.wcet > min(it.deadline, instance.horizon)), None)


def greatest(holds):
    """The greatest number with which something holds that holds with each smaller one; none where it doesn't with 0."""
    low, high = -1, 1000 * TICKS_MOST + 1
    while high - low > 1:
        number = (low + high) // 2
        low, high = (number, high) if holds(number) else (low, number)
    return None if low < 0 else low


def judge_more(instance, runs, number, certificate_text, reduced_text):
    """Judges that there is no plan with a number; raises Refused."""
    more = longer(instance, runs, number)
    if reduced_text is not None and not are_same(more, Instance(reduced_text)):
        raise Refused(5, "margin reduced")
    if (low := proved_bound(more, certificate_text)) != more.horizon + 1:
        raise Refused(5, "margin bound", low)


def judge_stays(instance, runs, plan, number):
    """Judges that a plan stays valid with a number, and not with one more; raises Refused."""
    own = greatest(lambda x: next(plan_faults(longer(instance, runs, x), plan), None) is None)
    if own != number:
        raise Refused(5, "margin own", "none" if own is None else own)


def margined(instance, answer, certificate_text, reduced_text, runs):
    """What an answer shows of how much longer processes may run, and the status; raises Refused. That no plan is valid as they run, or that
    none was found, is shown by nothing."""
    line, _, rest = answer.partition(b"\n")
    form = re.fullmatch(rb"none|margin (\d+)( window (\w+))?|between (\d+) (\d+)|unknown (\d+)", line)
    if not form or bool(rest) != line.startswith((b"margin", b"between")):
        raise Refused(5, "margin form")
    there = within(instance, runs.within)
    if rest:
        judge_stays(there, runs, verified(instance, rest, lines_before=1), int(form[1] or form[4]))
    if form[1] and not form[2]:
        judge_more(there, runs, int(form[1]) + 1, certificate_text, reduced_text)
        return line.decode(), 0
    if certificate_text or reduced_text:
        raise Refused(5, "margin beside")
    if form[2] and (full := without_room(there, runs, int(form[1]) + 1)) != next((p for p, it in enumerate(there.processes) if it.name.encode() == form[3]), -1):
        raise Refused(5, "margin window", "none" if full is None else there.processes[full].name)
    if form[4] and not int(form[4]) < int(form[5]):
        raise Refused(5, "margin apart")
    most = greatest(lambda x: without_room(there, runs, x) is None)
    if (form[5] or form[6]) and most is not None and int(form[5] or form[6]) > most:
        raise Refused(5, "margin most", most)
    return line.decode(), 10 if line == b"none" else 0 if form[1] else 11


def runs_in(instance, words):
    """What the words behind the files ask for; raises Refused."""
    permille, tick, names = False, TICKS_MOST, list(words)
    while names and names[0] in ("--permille", "--within"):
        if names.pop(0) == "--permille":
            permille = True
        else:
            tick = number_of(names.pop(0) if names else "", 1, TICKS_MOST)
    return Runs(chosen_by(instance, names, "margin") if names else list(range(len(instance.processes))), permille, tick)


def margin(paths, words):
    """The same of files; raises Refused."""
    reduced_text, words = reduced_in(words, 0)
    with (opened(paths[0], "instance") as instance, opened(paths[1], "plan") as answer,
          opened(paths[2], "certificate") as certificate):
        judged = Instance(taken(instance, "instance", INSTANCE_BYTES))
        runs = runs_in(judged, words)
        return margined(judged, taken(answer, "plan", PRINTED_BYTES),
                        taken(certificate, "certificate", CERTIFICATE_BYTES), reduced_text, runs)


def replay(paths, words):
    """What membership does in a cycle of the plan of a file, where the words name what is lost; raises Refused."""
    with opened(paths[0], "instance") as instance, opened(paths[1], "plan") as plan:
        losses = stated_losses(words)
        judged = Instance(taken(instance, "instance", INSTANCE_BYTES))
        return replayed(judged, taken(plan, "plan", PLAN_BYTES), losses), 0


def compare(paths):
    """What is different of the releases of files; raises Refused."""
    with contextlib.ExitStack() as files:
        releases = []
        for word, paths_there in (("old", paths[:2]), ("new", paths[2:])):
            with of_release(word):
                there = [files.enter_context(opened(path, what)) for path, what in zip(paths_there, ("instance", "plan"))]
            releases.append((word, there))
        judged = []
        for word, (instance, plan) in releases:
            with of_release(word):
                problem = Instance(taken(instance, "instance", INSTANCE_BYTES))
                judged.append((problem, printed(problem, taken(plan, "plan", PRINTED_BYTES))))
        return comparison(*judged)


def command_of(words):
    """What is judged by the words, without the table or the look of a picture that they name."""
    table = "processes"
    if len(words) == 5 and words[0] == "schedule" and words[3] == "--table" and words[4] in TABLES:
        words, table = words[:3], words[4]
    if len(words) == 3 and words[0] == "schedule":
        return (lambda instance, text: schedule(instance, text, table)), "plan", PRINTED_BYTES
    if len(words) >= 3 and words[0] == "draw":
        return drawing_of(words[3:])
    if len(words) == 4 and words[0] == "period":
        ticks = number_of(words[3], 1, TICKS_MOST)
        return (lambda instance, text: period(instance, text, ticks)), "plan", PLAN_BYTES
    if len(words) == 5 and words[0] == "tables" and words[3] == "--rounds":
        rounds = number_of(words[4], 0, NUMBER_MOST)
        return (lambda instance, text: tables(instance, text, rounds)), "plan", PLAN_BYTES
    if len(words) != 3 or words[0] not in COMMANDS:
        raise Refused(2, USAGE)
    return COMMANDS[words[0]]


def number_of(word, least, most):
    """The number of a word, where it is within these bounds."""
    if not word.isdecimal() or not least <= int(word) <= most:
        raise Refused(2, USAGE)
    return int(word)


def drawing_of(words):
    """How a picture is drawn, by the words behind the two files."""
    used, width = words[-1:] == ["--used"], 1200
    words = words[:len(words) - used]
    if len(words) == 2 and words[0] == "--width" and words[1].isdecimal():
        words, width = [], int(words[1])
    if words or width not in WIDTHS:
        raise Refused(2, USAGE)
    return (lambda instance, text: draw(instance, text, width, used)), "plan", PRINTED_BYTES


def run(words):
    if len(words) == 4 and words[0] == "judge":
        return judge(words[1:])
    if len(words) >= 4 and words[0] == "join":
        return join(words[1:])
    if len(words) == 5 and words[0] == "compare":
        return compare(words[1:])
    if len(words) >= 3 and words[0] == "replay":
        return replay(words[1:3], words[3:])
    if len(words) >= 5 and words[0] == "limit":
        return limit(words[1:4], words[4:])
    if len(words) >= 4 and words[0] == "margin":
        return margin(words[1:4], words[4:])
    if len(words) >= 2 and words[0] == "why":
        return why(words[1:])
    if len(words) == 2 and words[0] == "unroll":
        return unroll(words[1:])
    if len(words) in (2, 3) and words[0] == "repeat":
        return repeat(words[1:])
    if len(words) >= 5 and words[0] == "age":
        return age(words[1:4], words[4:])
    command, what, most = command_of(words)
    with opened(words[1], "instance") as instance, opened(words[2], what) as text:
        judged = Instance(taken(instance, "instance", INSTANCE_BYTES))
        return command(judged, taken(text, what, most)), 0


def write_out(line):
    try:
        os.write(1, line.encode() + b"\n")
    except OSError as fault:
        raise Refused(6, "write out") from fault


def main():
    try:
        line, status = run(sys.argv[1:])
        write_out(line)
        return status
    except Refused as fault:
        print(fault.line, file=sys.stderr)
        return fault.status
    except MemoryError:
        print("memory", file=sys.stderr)
        return 4


if __name__ == "__main__":
    sys.exit(main())
