#!/usr/bin/env python3
"""Compares ttplan with tools/second_check.py on texts of clusters with several periods that are made at random:

    tools/compare_rates.py [N] [--seed S] [--program FILE | --alone] [--plans N] [--keep FOLDER]

Each text has periods of 6 to 36 ticks, with and without a gap, values of the same period and of the one before, stores, chains, and one
or two channels; some are damaged. Both programs have to write the same instance, byte for byte, or the same refusal, and the same of how
it repeats. Of each instance so many plans are made, most of them nearly valid: a plan has to be valid for the unrolled instance exactly
where it is right in six cycles, told by absolute jobs and ticks; and where it is valid ttplan's numbers of all cycles have to be those of
the six. The least age of a first chain has to be that of all plans of the cluster, where these are few enough to be tried one after another,
and what shows it is judged. A text or plan on which the two differ is told, and kept in FOLDER. What was answered how often is written at the end, and the
status is 1 where any differed. With --alone no program is run: then the plans are compared alone. Which circle of processes is told is
left out (M13)."""

import argparse
import collections
import itertools
import json
import math
import pathlib
import random
import subprocess
import sys
import tempfile

ROOT = pathlib.Path(__file__).resolve().parent.parent
sys.path.insert(0, str(ROOT / "tools"))
import compare_checks  # noqa: E402
import second_check  # noqa: E402
from loading import loaded  # noqa: E402

EVERY = loaded("tests/every_plan")
TRIED = 20_000  # so many starts of all jobs and stores together are tried, at most

PERIODS = [[6, 12], [8, 4], [12, 6, 4], [10, 20], [9, 18, 36], [12, 24], [8, 16, 24], [10, 15], [12], [14, 7], [36, 18, 12], [12, 18], [20, 30]]


# Texts made at random


def made_cluster(dice):
    precision = dice.choice([0, 0, 0, 1])
    cluster = {"precision": precision, "lead": 2 * precision + dice.choice([0, 0, 0, 1]), "trail": precision + dice.choice([0, 0, 0, 1]),
               "head": 1, "per_byte": 1, "copy_out": dice.choice([0, 0, 0, 1]), "copy_in": dice.choice([0, 0, 0, 1])}
    if dice.random() < 0.4:
        cluster["channels"] = dice.choice([1, 2, 2, 2, 2, 2, 3])
    if dice.random() < 0.3:
        cluster["store"] = dice.choice([1, 1, 2, 2, 0])
    if dice.random() < 0.25:
        cluster["round"] = dice.choice([*range(3, 14), *range(3, 14), 0, 1000001])
    return cluster


def made_processes(dice, nodes, periods):
    for p in range(dice.choice([2, 2, 3, 3, 4, 5])):
        period = dice.choice(periods)
        process = {"name": f"p{p}", "node": f"N{dice.randrange(nodes) if p > 1 else p % nodes}", "wcet": dice.choice([1, 1, 1, 2]), "period": period}
        if dice.random() < 0.15:
            process["release"] = dice.randrange(3)
        if dice.random() < 0.2:
            process["deadline"] = dice.randrange(max(period - 3, 1), period + (2 if dice.random() < 0.03 else 1))
        yield process


def made_ways(dice, processes):
    """Links and messages between the processes, mostly such as lead round in no circle within a period."""
    links, messages = [], []
    for p, one in enumerate(processes):
        to = {0: [], 1: []}
        for q, other in enumerate(processes):
            delay = dice.choice([0, 0, 1]) if p < q or dice.random() < 0.01 else 1
            if dice.random() < (0.4 if p < q else 0.12):
                if one["node"] != other["node"]:
                    to[delay].append(other["name"])
                elif p != q or delay:
                    links.append({"from": one["name"], "to": other["name"]} | ({"delay": delay} if delay or dice.random() < 0.1 else {}))
        for delay, names in to.items():
            if names:
                messages.append({"name": f"m{len(messages)}", "from": one["name"], "to": names, "bytes": dice.choice([1, 1, 1, 2])})
                messages[-1] |= {"delay": 1} if delay else {}
                messages[-1] |= {"both": True} if dice.random() < 0.1 else {}
    return links, messages


def made_chains(dice, processes, links, messages):
    """Chains of processes each of which reads what the one before it says, but for some."""
    reads = {(link["from"], link["to"]) for link in links} | {(message["from"], q) for message in messages for q in message["to"]}
    periods = {process["name"]: process["period"] for process in processes}
    for k in range(dice.choice([0, 0, 1, 1, 2])):
        through = [dice.choice(processes)["name"]]
        while len(through) < 5 and (behind := sorted(q for p, q in reads if p == through[-1])) and (len(through) < 2 or dice.random() < 0.5):
            through.append(dice.choice(behind))
        if len(through) > 1 or dice.random() < 0.02:
            yield {"name": f"c{k}", "through": through, "age": dice.randrange(3, 1 + 2 * sum(periods[p] for p in through))}


def made_text(dice):
    """The text of a small cluster with several periods, mostly one without a fault."""
    periods, nodes = dice.choice(PERIODS), dice.choice([1, 2, 2, 2, 3])
    processes = list(made_processes(dice, nodes, periods))
    links, messages = made_ways(dice, processes)
    tables = [("[cluster]", made_cluster(dice))]
    tables += [("[[node]]", {"name": f"N{n}", "capacity": dice.choice([0, 1, 1, 2, 2, 3])}) for n in range(nodes)]
    tables += [(f"[[{word}]]", table) for word, there in (
        ("process", processes), ("link", links), ("message", messages), ("chain", made_chains(dice, processes, links, messages))) for table in there]
    return "".join(f"{head}\n" + "".join(f"{key} = {json.dumps(value)}\n" for key, value in table.items()) for head, table in tables).encode()


# Plans made at random


def ready_order(dice, instance):
    """The processes, each behind those that it waits for, and mostly by their deadlines."""
    left, done = set(range(len(instance.processes))), []
    while left:
        free = [p for p in sorted(left) if not any((q, p) in instance.waits for q in left)]
        done.append(min(free, key=lambda p: (instance.processes[p].deadline + dice.choice([0, 0, 0, 4]), dice.random())))
        left.remove(done[-1])
    return done


def first_start(taken, start, wcet):
    """The first tick from which a node has nothing else to do."""
    for begin, end in sorted(taken):
        if start + wcet <= begin:
            break
        start = max(start, end)
    return start


def first_round(instance, plan, m, ready, used):
    """The first round in which a message that is ready has room, on the first channel that does."""
    n, message = instance.sender_node(m), instance.messages[m]
    r = max(-(-(ready - plan.begin[n]) // plan.length), 0)
    while True:
        for channel in [2] if message.both else range(instance.channels):
            on = (0, 1) if channel == 2 else (channel,)
            if all(used.get((n, r, c), 0) + message.bytes <= plan.caps[n] for c in on) or message.bytes > plan.caps[n]:
                for c in on:
                    used[n, r, c] = used.get((n, r, c), 0) + message.bytes
                return r, channel
        r += 1


def made_plan(dice, instance):
    """A plan of early starts, which may be valid."""
    order = list(range(len(instance.nodes)))
    dice.shuffle(order)
    plan = second_check.Plan(0, order, [node.capacities[0] for node in instance.nodes], [0] * len(instance.processes),
                             [0] * len(instance.messages), [0] * len(instance.messages))
    plan.length, plan.begin, durations = second_check.slot_times(instance, plan)
    taken, used = {n: [] for n in order}, {}
    for p in ready_order(dice, instance):
        process = instance.processes[p]
        start = process.release
        start = max([start] + [plan.starts[q] + instance.processes[q].wcet for q, after in instance.linked if after == p])
        for m in instance.sent_to[p]:
            n = instance.sender_node(m)
            start = max(start, plan.rounds[m] * plan.length + plan.begin[n] + durations[n] + instance.copy_in)
        plan.starts[p] = first_start(taken[process.node], start + dice.choice([0] * 9 + [1, 2]), process.wcet)
        taken[process.node].append((plan.starts[p], plan.starts[p] + process.wcet))
        for m, message in enumerate(instance.messages):
            if message.sender == p:
                plan.rounds[m], plan.channels[m] = first_round(instance, plan, m, plan.starts[p] + process.wcet + instance.copy_out, used)
    return plan


def changed(dice, instance, plan):
    """The same plan, in which some starts, rounds, channels or places are others."""
    plan = second_check.Plan(plan.delay, list(plan.order), list(plan.caps), list(plan.starts), list(plan.rounds), list(plan.channels))
    for _ in range(dice.choice([0, 1, 1, 2])):
        what = dice.randrange(8)
        if what < 4:
            p = dice.randrange(len(plan.starts))
            plan.starts[p] = max(plan.starts[p] + dice.choice([-2, -1, -1, 1, 1, 2, 3]), 0)
        elif what < 6 and plan.rounds:
            m = dice.randrange(len(plan.rounds))
            plan.rounds[m] = max(plan.rounds[m] + dice.choice([-1, -1, 1]), 0)
        elif what == 6 and plan.channels and instance.channels == 2:
            plan.channels[dice.randrange(len(plan.channels))] = dice.randrange(3)
        else:
            dice.shuffle(plan.order)
    return plan


def plan_text(instance, plan):
    delay = max(start + process.wcet for start, process in zip(plan.starts, instance.processes))
    out = [f"ttplan {instance.channels}", f"delay {delay}", "order " + " ".join(instance.nodes[n].name for n in plan.order)]
    out += [f"cap {node.name} {capacity}" for node, capacity in zip(instance.nodes, plan.caps)]
    out += [f"start {process.name} {start}" for process, start in zip(instance.processes, plan.starts)]
    out += [f"round {message.name} {r}" for message, r in zip(instance.messages, plan.rounds)]
    if instance.channels == 2:
        out += [f"chan {message.name} {second_check.CHANNEL_WORDS[channel].decode()}" for message, channel in zip(instance.messages, plan.channels)]
    return "".join(line + "\n" for line in out).encode()


# The comparison


def second(call, *texts):
    """The second checker's status and what it writes."""
    try:
        return 0, call(*texts)
    except second_check.Refused as fault:
        return fault.status, fault.line


ASKED = ("unroll", "repeat")


def repeated(text, plan=None):
    return "\n".join(second_check.repeated_lines(second_check.Rates(text), plan))


def first(program, *words):
    """ttplan's status and what it writes."""
    ran = subprocess.run([program, *words], capture_output=True, text=True)
    return ran.returncode, (ran.stdout + ran.stderr).removesuffix("\n")


def are_same(one, other):
    circles = "rates M13"
    return one == other or one[1].startswith(circles) and other[1].startswith(circles)


# The least age of a chain, by all plans


def every_instance(instance):
    """The same instance, as tests/every_plan has it."""
    return EVERY.Instance(
        instance.cluster | {"horizon": instance.horizon, "channels": instance.channels}, [list(node.capacities) for node in instance.nodes],
        [EVERY.Process(process.node, process.wcet, process.release, process.deadline) for process in instance.processes],
        [(link.before, link.after) for link in instance.links],
        [EVERY.Message(message.sender, message.to, message.bytes, message.both) for message in instance.messages])


def least_of_all(unrolled, chain):
    """The least age that a chain has in any plan; none where there is no plan."""
    rates, instance, best = unrolled.rates, every_instance(unrolled.instance), None
    last, first = chain.through[-1], chain.through[0]

    def age(starts):
        return max(starts[unrolled.place[last, job]] + rates.processes[last].wcet - rates.released(first, rates.carried(chain, job))
                   for job in range(rates.jobs(last)))

    every = sorted((age(starts), starts) for starts in EVERY.starts_of(instance))
    caps = [node[0] for node in instance.nodes]
    for order in itertools.permutations(range(len(caps))):
        length, slots = EVERY.slots_of(instance, order, caps)
        for own, starts in every:
            if best is not None and own >= best:
                break
            if EVERY.can_send(instance, starts, caps, length, slots):
                best = own
                break
    return best


def least_age(text):
    """The line of the least age of a text's first chain; none where there are too many plans. Raises Refused."""
    rates = second_check.Rates(text)
    unrolled = second_check.Unrolled(second_check.with_age(rates, 0, second_check.TICKS_MOST))
    if math.prod(process.deadline - process.release - process.wcet + 1 for process in unrolled.instance.processes) > TRIED:
        return None
    best = least_of_all(unrolled, rates.chains[0])
    if best is None:
        return "none"
    full = second_check.job_without_room(unrolled, 0, best - 1)
    return f"age {best}" if full is None else f"age {best} window {full}"


def has_chain(text):
    try:
        return bool(second_check.Rates(text).chains)
    except second_check.Refused:
        return False


class Comparison:
    def __init__(self, asked, room):
        self.dice, self.asked, self.room = random.Random(asked.seed), asked, room
        self.answers, self.differ = collections.Counter(), 0

    def tell(self, k, what, texts, *said):
        self.differ += 1
        print(f"case {k}: {what}: {', '.join(map(str, said))}", flush=True)
        for name, text in zip(("toml", "plan"), texts if self.asked.keep else []):
            pathlib.Path(self.asked.keep, f"rates{k}.{name}").write_bytes(text)

    def programs(self, k, command, call, *texts):
        """Compares the two programs, where one is run, and hands out what the second one says."""
        other = second(call, *texts)
        if command in ASKED and not self.asked.alone:
            files = [self.room / name for name in ("rates", "plan")]
            for file, text in zip(files, texts):
                file.write_bytes(text)
            said = first(self.asked.program, command, *files[:len(texts)])
            if not are_same(said, other):
                self.tell(k, command, texts, f"ttplan {said}", f"second_check {other}")
        return other

    def age(self, k, text):
        """Compares the least age of the first chain with that of all plans, and has what shows it judged."""
        status, wanted = second(least_age, text)
        if wanted is None:
            return
        self.answers["ages"] += 1
        if self.asked.alone:
            return
        rates, cert, reduced, answer = (self.room / name for name in ("rates", "cert", "reduced", "answer"))
        rates.write_bytes(text)
        chain = second_check.Rates(text).chains[0].name
        _, said = first(self.asked.program, "age", rates, chain, "--workers", "1", "--cert", cert, "--reduced", reduced)
        if said.partition("\n")[0] != wanted and not said.startswith("rates M13"):
            self.tell(k, "age", (text,), f"ttplan {said}", f"all plans {wanted}")
        elif status == 0:
            answer.write_text(said + "\n")
            judged = second(second_check.age, (rates, answer, cert), ["--reduced", str(reduced), chain])
            if judged[0]:
                self.tell(k, "age", (text,), f"ttplan {said}", f"second_check {judged}")

    def case(self, k):
        text = made_text(self.dice)
        if self.dice.random() < 0.25:
            text = compare_checks.damaged(self.dice, text)
        status, said = self.programs(k, "unroll", second_check.unrolled_text, text)
        self.answers["unrolled" if status == 0 else " ".join(said.split(" ")[:2])] += 1
        if status == 0:
            self.programs(k, "repeat", repeated, text)
            self.plans(k, text)
        if has_chain(text):
            self.age(k, text)

    def plans(self, k, text):
        """Compares what is valid with what repeats rightly."""
        unrolled = second_check.Unrolled(second_check.Rates(text))
        self.answers["with stores"] += bool(unrolled.stores)
        instance, valid = unrolled.instance, None
        for _ in range(self.asked.plans):
            plan = changed(self.dice, instance, made_plan(self.dice, instance))
            is_valid = next(second_check.plan_faults(instance, plan), None) is None
            fault = next(second_check.Repeated(unrolled, plan).faults(), None)
            self.answers["valid" if is_valid else "not valid"] += 1
            valid = plan if is_valid else valid
            if is_valid == (fault is not None):
                self.tell(k, "plan", (text, plan_text(instance, plan)), f"valid {is_valid}", f"repeats but for {fault}")
        if valid:
            self.programs(k, "repeat", repeated, text, plan_text(instance, valid))


def main():
    words = argparse.ArgumentParser(description="Compares ttplan with second_check.py on clusters with several periods.")
    words.add_argument("cases", nargs="?", type=int, default=2000)
    words.add_argument("--seed", type=int, default=1)
    words.add_argument("--program", default=str(ROOT / "build/ttplan"))
    words.add_argument("--alone", action="store_true", help="runs no program")
    words.add_argument("--plans", type=int, default=10, help="how many plans are made of each text")
    words.add_argument("--keep", help="where the texts are kept on which the two differ")
    asked = words.parse_args()
    if not asked.alone and not pathlib.Path(asked.program).exists():
        sys.exit("compare_rates.py: the proved program isn't built yet: ./ttplan prove")
    with tempfile.TemporaryDirectory(prefix="ttplan-") as room:
        comparison = Comparison(asked, pathlib.Path(room))
        for k in range(asked.cases):
            comparison.case(k)
    print(", ".join(f"{answer} {count}" for answer, count in sorted(comparison.answers.items())))
    print(f"{asked.cases} texts, {comparison.differ} differ")
    return 1 if comparison.differ else 0


if __name__ == "__main__":
    sys.exit(main())
