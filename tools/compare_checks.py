#!/usr/bin/env python3
"""Compares ttplan with tools/second_check.py on texts that are damaged or made at random:

    tools/compare_checks.py [--cases N] [--seed S] [--program FILE] [--keep FOLDER] [--channels]

The texts are the examples' and those of small instances made here, with plans and certificates; most are damaged in one to
three places. Both programs have to write the same words and end with the same status, and of a valid plan the same schedules,
node tables, picture, periods and trace of a cycle with losses. A case on which they differ is told, and kept in FOLDER. What was answered
how often is written at the end, and the status is 1 where any case differed.

With --channels most instances that are made have two channels, and plans, choices and steps go with them. Which circle of
processes is told is left out (M13)."""

import argparse
import collections
import pathlib
import random
import re
import subprocess
import sys
import tempfile

ROOT = pathlib.Path(__file__).resolve().parent.parent
sys.path.insert(0, str(ROOT / "tools"))
import second_check  # noqa: E402

NUMBERS = [0, 1, 2, 3, 5, 8, 9, 32, 33, 255, 256, 257, 99, 100, 101, 102, 1000, 1001, 10000, 10001, 1000000, 1000001,
           4294967295, 4294967296, 2**63 - 1, 2**63, -1, -(2**63) - 1]
SPELLINGS = ["00", "01", "+1", "-0", "0x10", "0o7", "0b11", "1_0", "1__0", "1e3", "1.5", "inf", "true", '"1"', "'q'", "[1]",
             "[]", "{}", "{a = 1}", "2024-01-01", "12:00:00", "", '"""x"""', "[[1]]", '["q", 1]', '[4294967296, "x"]']
BYTES = b"09aZ_\n\r\t \"'[]{}=#\x00\xff\xc3.,-+\\"


# Damage


def other_number(dice, text):
    found = list(re.finditer(rb"\d+", text))
    if not found:
        return text
    place = dice.choice(found)
    near = int(place[0]) + dice.choice([-2, -1, 1, 2]) if len(place[0]) < 20 else 0
    new = dice.choice([str(near), str(near), str(near), str(dice.choice(NUMBERS)), dice.choice(SPELLINGS)])
    return text[:place.start()] + new.encode() + text[place.end():]


def other_word(dice, text):
    found = list(re.finditer(rb"[^ \n=\"]+", text))
    if not found:
        return text
    place, other = dice.choice(found), dice.choice(found)
    return text[:place.start()] + other[0] + text[place.end():]


def other_lines(dice, text):
    lines = text.split(b"\n")
    j, k = dice.randrange(len(lines)), dice.randrange(len(lines))
    kind = dice.randrange(4)
    if kind == 0:
        del lines[j]
    elif kind == 1:
        lines.insert(j, lines[k])
    elif kind == 2:
        lines[j], lines[k] = lines[k], lines[j]
    else:
        lines[j] = lines[j] + dice.choice([b" ", b" 0", b"\r", b"#", b",", b" = 1"])
    return b"\n".join(lines)


def other_bytes(dice, text):
    k, many = dice.randrange(len(text) + 1), dice.choice([0, 1, 1, 1, 2, 20])
    new = bytes([dice.choice(BYTES)]) * dice.choice([0, 1, 1])
    return text[:k] + new + text[k + many:]


def cut_or_longer(dice, text):
    return dice.choice([text[: dice.randrange(len(text) + 1)], text[:-1], text + b"\n", text + b"x", text + text])


def damaged(dice, text):
    ways = [other_number] * 5 + [other_word] * 2 + [other_lines] * 2 + [other_bytes] * 2 + [cut_or_longer]
    for _ in range(dice.choice([1, 1, 1, 2, 3])):
        text = dice.choice(ways)(dice, text)
    return text


# Instances and plans made at random


def made_instance(dice, two_channels=False):
    """The text of a small instance, mostly one without a fault, and where it is asked for mostly one of two channels."""
    precision = dice.choice([0, 0, 1])
    horizon = dice.choice([8, 12, 20, 30, 60])
    cluster = {"precision": precision, "lead": 2 * precision + dice.choice([0, 0, 1]),
               "trail": precision + dice.choice([0, 0, 1]), "head": dice.choice([1, 1, 2]), "per_byte": dice.choice([1, 1, 2]),
               "copy_out": dice.choice([0, 0, 1]), "copy_in": dice.choice([0, 0, 1]), "horizon": horizon}
    if two_channels or dice.random() < 0.2:
        cluster["channels"] = 2 if two_channels and dice.random() < 0.9 else dice.choice([1] * 9 + [0, 2, 3])
    out = ["[cluster]"] + [f"{key} = {value}" for key, value in cluster.items()]
    nodes, count = dice.choice([1, 2, 2, 3, 4]), dice.choice([1, 2, 3, 4, 5, 6])
    for n in range(nodes):
        options = sorted(dice.sample(range(6), dice.choice([1, 1, 2, 3]))) if dice.random() < 0.7 else [0]
        out += ["[[node]]", f'name = "N{n}"', f"capacities = {options}"]
    homes = [dice.randrange(nodes) for _ in range(count)]
    wcets = [dice.choice([1, 2, 2, 3]) for _ in range(count)]
    for p in range(count):
        out += ["[[process]]", f'name = "p{p}"', f'node = "N{homes[p]}"', f"wcet = {wcets[p]}"]
        if dice.random() < 0.2:
            out.append(f"release = {dice.randrange(4)}")
        if dice.random() < 0.2:
            out.append(f"deadline = {dice.randrange(6, horizon + 3)}")
    messages = []
    for p in range(count):
        for q in range(p + 1, count):
            if homes[p] == homes[q] and dice.random() < 0.25:
                out += ["[[link]]", f'from = "p{p}"', f'to = "p{q}"']
        to = [q for q in range(p + 1, count) if homes[q] != homes[p] and dice.random() < 0.4]
        if to:
            messages.append((p, to))
    for m, (p, to) in enumerate(messages):
        receivers = ", ".join(f'"p{q}"' for q in to)
        out += ["[[message]]", f'name = "m{m}"', f'from = "p{p}"', f"to = [{receivers}]", f"bytes = {dice.choice([1, 1, 2, 3])}"]
        if dice.random() < (0.4 if two_channels else 0.1):
            out.append(f"both = {dice.choice(['false'] * (1 if two_channels else 9) + ['true'])}")
    return "".join(line + "\n" for line in out).encode()


def channel_line(dice, message):
    """The line of a message's channel, which mostly is one that it may be on."""
    alone = not message.both or dice.random() < 0.02
    return f"chan {message.name} {dice.choice(['0', '1', 'both']) if alone else 'both'}"


def made_plan(dice, instance):
    """The text of a plan of early starts, which mostly is valid."""
    nodes = list(range(len(instance.nodes)))
    dice.shuffle(nodes)
    caps = [node.capacities[-1] for node in instance.nodes]
    durations = [instance.duration(capacity) for capacity in caps]
    starts, ends = {}, {}
    rounds = [0] * len(instance.messages)
    for p, process in enumerate(instance.processes):
        start = process.release
        start = max([start] + [end for q, end in ends.items() if instance.processes[q].node == process.node])
        for m in instance.sent_to[p]:
            n = instance.sender_node(m)
            offset = sum(durations[u] for u in nodes[:nodes.index(n)])
            rounds[m] = max(rounds[m], -(-(ends.get(instance.messages[m].sender, 0) + instance.copy_out - offset) // sum(durations)))
            start = max(start, rounds[m] * sum(durations) + offset + durations[n] + instance.copy_in)
        starts[p], ends[p] = start, start + process.wcet
    out = [f"ttplan {instance.channels}", f"delay {max(ends.values())}", "order " + " ".join(instance.nodes[n].name for n in nodes)]
    out += [f"cap {node.name} {caps[n]}" for n, node in enumerate(instance.nodes)]
    out += [f"start {process.name} {starts[p]}" for p, process in enumerate(instance.processes)]
    out += [f"round {message.name} {rounds[m]}" for m, message in enumerate(instance.messages)]
    out += [channel_line(dice, message) for message in instance.messages if instance.channels == 2]
    return "".join(line + "\n" for line in out).encode()


# Certificates made at random


def random_step(dice, instance, facts):
    """A step, mostly of things that are there, and with numbers that matter."""
    word = dice.choice([*second_check.STEPS, b"x-cycle"])
    many = dice.randrange(2, 4) if word == b"x-cycle" else second_check.STEPS[word]
    p = dice.randrange(len(instance.processes))
    m = dice.randrange(len(instance.messages) + 1)
    n = dice.randrange(len(instance.nodes))
    kind = word.split(b"-")[1]
    if kind in (b"arrive", b"message"):
        to = instance.messages[m].to if m < len(instance.messages) else [0]
        numbers = [m, dice.choice(to) if dice.random() < 0.95 else p]
    elif kind in (b"before", b"window", b"twin", b"cycle") and many > 1:
        numbers = [dice.choice(instance.by_node[instance.processes[p].node]) for _ in range(many)]
    elif kind == b"load":
        start, end = facts.es[p], facts.le[dice.choice(instance.by_node[instance.processes[p].node])]
        numbers = [instance.processes[p].node, start, max(end + dice.choice([-1, 0, 0, 0, 1]), 0)]
    elif kind == b"frames":
        numbers = [n, dice.choice(facts.lo or [0]), dice.choice(facts.top or [0])]
    elif kind == b"channel":
        numbers = [dice.choice([0, 0, 0, 1, 1, 1, 2]), n, dice.choice(facts.lo or [0]), dice.choice(facts.top or [0])]
    elif kind == b"mirror":
        numbers = [dice.choice([m, *(k for k, channel in enumerate(facts.channels) if channel == 1)])]
    elif kind == b"late":
        numbers = [m, max(0, (facts.lo[m] if m < len(facts.lo) else 0) - dice.choice([0, 1, 1, 1, 2, 3]))]
    elif kind == b"silent":
        numbers = [n, dice.randrange(len(instance.nodes))]
    elif kind in (b"send", b"round", b"frame"):
        numbers = [m]
    elif kind == b"link":
        numbers = [dice.randrange(len(instance.links) + 1)]
    else:
        numbers = [p]
    if dice.random() < 0.003:
        numbers[dice.randrange(len(numbers))] = dice.choice([32, 256, 512, 1024, 4294967295, 4294967296])
    return word, numbers


def nearly_lawful(instance, facts):
    """Steps that would leave nothing if one start, end or round were sharper by one, or no message before one on channel 1 in its way."""
    windows = [b"x-window %d" % p for p, process in enumerate(instance.processes) if facts.es[p] + process.wcet == facts.le[p]]
    mirrors = [b"x-mirror %d" % m for m, channel in enumerate(facts.channels) if channel == 1]
    return windows + mirrors + [b"x-round %d" % m for m in range(len(facts.lo)) if facts.lo[m] + 1 == facts.top[m]]


def leaf_lines(dice, instance, choice, low):
    """A leaf, most of whose steps are lawful. Its last one leaves nothing where such a step is found."""
    goal = max(low + dice.choice([0, 0, 0, 1, 2, -1 if dice.random() < 0.02 else 0]), 0)
    facts = second_check.Facts(instance, choice, goal)
    lines, turns = [], dice.choice([5, 40, 100, 300])
    for turn in range(turns):
        word, numbers = random_step(dice, instance, facts)
        closes = word.startswith(b"x-")
        if closes and turn < turns // 2:
            continue
        if second_check.STEP_FUNCTIONS[word](facts, *numbers) or dice.random() < (0.02 if closes else 0.001):
            lines.append(b" ".join([word, *(str(number).encode() for number in numbers)]))
            if facts.closed and dice.random() < 0.98:
                break
    if not facts.closed and (closers := nearly_lawful(instance, facts)):
        lines.append(dice.choice(closers))
    stated = len(lines) + (dice.choice([-1, 1]) if dice.random() < 0.005 else 0)
    return [b"leaf %d %d" % (goal, max(stated, 0))] + lines


def tree_lines(dice, instance, choice, low, depth):
    if dice.random() < 0.35 + 0.1 * depth:
        return leaf_lines(dice, instance, choice, low)
    word = dice.choice([b"place", b"cap", b"pair", b"pair", b"round", *[b"chan"] * (2 * instance.channels - 2)])
    if word == b"place":
        numbers = []
    elif word == b"cap":
        numbers = [dice.randrange(len(instance.nodes))]
    elif word == b"pair":
        numbers = dice.choices(range(len(instance.processes)), k=2)
    elif word == b"chan":
        numbers = [dice.randrange(len(instance.messages) + 1), 3]
    else:
        numbers = [dice.randrange(len(instance.messages) + 1), dice.choice([0, 0, 1, 2, 3, instance.horizon - 2])]
    counted = word in (b"place", b"cap")
    below = second_check.children(instance, choice, word, numbers + [1] * counted)
    if below is None:
        if dice.random() < 0.95:
            return tree_lines(dice, instance, choice, low, depth + 0.5)
        below = [choice] * (dice.randrange(3) if counted else 3 if word == b"chan" else 2)
    if counted and dice.random() < 0.01:
        below = below[:-1] if dice.random() < 0.5 else below + below[-1:]
    numbers += [len(below)] * counted
    lines = [b" ".join([word, *(str(number).encode() for number in numbers)])]
    for child in below:
        lines += tree_lines(dice, instance, child, low, depth + 1)
    return lines


def made_certificate(dice, instance):
    low = dice.choice([0, 1, 2, 3, 4, 5, 6, 8, 10, instance.horizon + 1, dice.randrange(instance.horizon + 3)])
    version = dice.choice([b"ttcert 1", *[b"ttcert 2"] * (1 if instance.channels == 1 else 9)])
    lines = [version, b"low %d" % low] + tree_lines(dice, instance, second_check.root(instance), low, 0)
    return b"".join(line + b"\n" for line in lines)


# The comparison


def example_cases():
    """The examples' instances with the plans and certificates that go with them by name."""
    folders = ROOT / "examples", ROOT / "examples/small"
    for instance in sorted(file for folder in folders for file in folder.glob("*.toml")):
        plans, certificates = ([text.read_bytes() for text in sorted(instance.parent.glob(f"*.{kind}")) if text.stem.startswith(instance.stem)]
                               for kind in ("plan", "cert"))
        yield from (("verify", instance.read_bytes(), plan) for plan in plans)
        yield from (("check", instance.read_bytes(), certificate) for certificate in certificates)
        yield from (("judge", instance.read_bytes(), plan, certificate) for plan in plans for certificate in certificates)


def made_place(dice, plan):
    """What may stand in a plan's place: the plan, or what a search printed that was stopped, or that there is none."""
    best = dice.choice([b"none", b"%d" % dice.choice([0, 9, 4294967295, 4294967296])])
    line = b"stopped %b %d %b\n" % (dice.choice([b"budget", b"memory"]), dice.choice([0, 8, 4294967295]), best)
    return dice.choice([plan, plan, b"none\n", line + plan, line + plan, line])


def made_texts(dice, command, instance):
    """The texts of a command behind the instance's."""
    plan, certificate = made_plan(dice, instance), made_certificate(dice, instance)
    return {"verify": [plan], "check": [certificate], "judge": [made_place(dice, plan), certificate]}[command]


def case(dice, examples, two_channels):
    """A command and its texts."""
    if dice.random() < 0.3:
        command, *texts = dice.choice(examples)
    else:
        command, texts = dice.choice(["verify", "check", "check", "judge"]), [made_instance(dice, two_channels)]
        try:
            read = second_check.Instance(texts[0])
        except second_check.Refused:
            return command, *texts, *[b""] * (2 if command == "judge" else 1)
        texts += made_texts(dice, command, read)
        if command == "check" and dice.random() < 0.7:
            return command, *texts
    where = dice.random()
    if where < 0.3:
        texts[0] = damaged(dice, texts[0])
    elif where < 0.9:
        at = dice.randrange(1, len(texts))
        texts[at] = damaged(dice, texts[at])
    return command, *texts


def made_losses(dice, instance, plan_text):
    """Words that name lost frames of a valid plan, now and then one that can't be."""
    plan = second_check.verified(instance, plan_text)
    rounds, nodes, words = second_check.cycle_rounds(instance, plan), len(plan.order), []
    for _ in range(dice.choice([0, 1, 2, 4, 8])):
        r, k = dice.randrange(rounds), dice.randrange(nodes)
        words.append(f"{r}/{k}/{dice.choice(['*', *(n for n in range(nodes) if n != plan.order[k])])}")
    if dice.random() < 0.1:
        words.append(dice.choice(["0/0", "00/0/0", "0/0/**", "0/4/*", "4294967295/0/*", "4294967296/0/*"]))
    dice.shuffle(words)
    return words


def second(command, instance, *texts):
    """The second checker's status and text. Behind a plan stand the table's name of `schedule`, the width of `draw`, and `used` where
    empty slots are left out, the losses of `replay`, the ticks of `period`, and the rounds of `tables`."""
    try:
        if command == "replay":
            losses = second_check.stated_losses(texts[1:])
            return 0, second_check.replayed(second_check.Instance(instance), texts[0], losses)
        if command == "compare":
            return second_check.comparison(second_check.released("old", instance, texts[0]), second_check.released("new", *texts[1:]))[::-1]
        judged = second_check.Instance(instance)
        if command == "judge":
            delay = second_check.given_delay(judged, texts[0])
            return second_check.judgement(judged, delay, second_check.proved_bound(judged, texts[1]))[::-1]
        if command == "schedule":
            return 0, second_check.schedule(judged, *texts)
        if command == "draw":
            width, *used = texts[1:] or ["1200"]
            return 0, second_check.draw(judged, texts[0], width=int(width), used=bool(used))
        if command == "period":
            return 0, second_check.period(judged, texts[0], int(texts[1]))
        if command == "tables":
            return 0, second_check.tables(judged, texts[0], *map(int, texts[1:]))
        return 0, second_check.COMMANDS[command][0](judged, *texts)
    except second_check.Refused as fault:
        return fault.status, fault.line


OPTIONS = {"schedule": ["--table"], "tables": ["--rounds"]}


def both(program, files, command, *texts):
    """What the two programs say, each a status and a text. Behind the plan stands what `second` takes there."""
    given = list(texts[len(files):])
    words = OPTIONS.get(command, []) * bool(given) + given
    ran = subprocess.run([program, command, *files, *words], capture_output=True, text=True)
    return (ran.returncode, (ran.stdout + ran.stderr).rstrip("\n")), second(command, *texts)


def main():
    words = argparse.ArgumentParser(description="Compares ttplan with second_check.py on damaged texts.")
    words.add_argument("--cases", type=int, default=3000)
    words.add_argument("--seed", type=int, default=1)
    words.add_argument("--program", default=str(ROOT / "build/ttplan"))
    words.add_argument("--keep", help="where the texts are kept on which the two differ")
    words.add_argument("--channels", action="store_true", help="makes instances of two channels")
    asked = words.parse_args()
    if not pathlib.Path(asked.program).exists():
        sys.exit("compare_checks.py: the proved program isn't built yet: ./ttplan prove")
    dice, examples = random.Random(asked.seed), list(example_cases())
    answers, differ = collections.Counter(), 0
    with tempfile.TemporaryDirectory(prefix="ttplan-") as room:
        files = [pathlib.Path(room, name) for name in ("instance", "text", "certificate")]
        for k in range(asked.cases):
            command, *texts = case(dice, examples, asked.channels)
            for file, text in zip(files, texts):
                file.write_bytes(text)
            named = [str(file) for file, _ in zip(files, texts)]
            pairs = [both(asked.program, named, command, *texts)]
            first, other = pairs[0]
            answers[" ".join(other[1].split(" ")[: 1 if other[0] in (0, 10, 11) else 2])] += 1
            if first[1].startswith("instance M13") and other[1].startswith("instance M13"):
                continue
            if command == "verify" and other[0] == 0:
                pairs += [both(asked.program, named, "schedule", *texts, table) for table in second_check.TABLES]
                pairs += [both(asked.program, named, word, *texts) for word in ("draw", "tables")]
                pairs.append(both(asked.program, named, "period", *texts, str(dice.choice([8, 12, 60, 100, 360, 1000, 10000, 99991]))))
                pairs.append(both(asked.program, named, "tables", *texts, str(dice.randrange(8))))
                losses = made_losses(dice, second_check.Instance(texts[0]), texts[1])
                pairs.append(both(asked.program, named, "replay", *texts, *losses))
            for first, other in pairs:
                if first != other:
                    differ += 1
                    print(f"case {k}: {command}: ttplan {first}, second_check {other}", flush=True)
            if asked.keep and any(first != other for first, other in pairs):
                for name, text in zip(("toml", "text", "cert"), texts):
                    pathlib.Path(asked.keep, f"case{k}.{name}").write_bytes(text)
    print(", ".join(f"{answer} {count}" for answer, count in sorted(answers.items())))
    print(f"{asked.cases} cases, {differ} differ")
    return 1 if differ else 0


if __name__ == "__main__":
    sys.exit(main())
