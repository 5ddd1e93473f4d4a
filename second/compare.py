#!/usr/bin/env python3
"""Compares `ketrumbis` and `console` with the program of this folder: see README.md"""

import argparse
import collections
import concurrent.futures
import itertools
import os
import pathlib
import random
import subprocess
import sys
import threading

import corpus
import scripts
from books import HERE, ROOT, SECOND
from books import any_records, bytes_damaged, full_lists, image, large, lists_changed, small, woven

FIRST = ROOT / "crates/ketrumbis/out/ketrumbis"
CONSOLE = ROOT / "crates/console/out/console"


def build_second():
    SECOND.parent.mkdir(exist_ok=True)
    subprocess.run(["rustc", "-O", "--edition", "2021", "-o", SECOND, HERE / "main.rs"], check=True)


def build_proved(name):
    with open(ROOT / f"crates/{name}/stdin", "rb") as given:
        made = subprocess.run(["rt", "run"], cwd=ROOT / f"crates/{name}", stdin=given, capture_output=True)
    if made.returncode != 0:
        sys.exit(made.stderr.decode())


def examples():
    return [path.read_bytes() for path in sorted((ROOT / "examples").glob("*.image"))]


def cases(seeds, count):
    for data in examples():
        yield "example", data
    yield "empty", b""
    for seed in seeds:
        for number in range(count):
            rng = random.Random(f"{seed} {number}")
            pick = rng.random()
            if pick < 0.30:
                yield f"small {seed} {number}", image(small(rng).bodies())
            elif pick < 0.58:
                yield f"woven {seed} {number}", image(woven(rng).bodies())
            elif pick < 0.62:
                yield f"large {seed} {number}", image(large(rng).bodies())
            elif pick < 0.75:
                yield f"lists changed {seed} {number}", lists_changed(rng)
            elif pick < 0.80:
                yield f"any records {seed} {number}", any_records(rng)
            elif pick < 0.83:
                yield f"full lists {seed} {number}", full_lists(rng)
            else:
                yield f"bytes damaged {seed} {number}", bytes_damaged(rng, examples())


def every_byte():
    """Each example cut at every byte, and with each value in place of every byte."""
    for data in examples():
        for at in range(len(data)):
            yield f"cut {at}", data[:at]
            for value in range(256):
                yield f"byte {at} {value}", data[:at] + bytes([value]) + data[at + 1:]


def output(command, data):
    done = subprocess.run(command, input=data, capture_output=True)
    return done.stdout if done.returncode == 0 else f"exit {done.returncode}: {done.stdout} {done.stderr}".encode()


def act(listing):
    """Whether some account can act as another."""
    return any(line.split()[1].count(b"1") > 1 for line in listing.splitlines())


def compare_images(options):
    second = [SECOND] + ([options.extent] if options.extent else [])
    counts, faults, differ = collections.Counter(), collections.Counter(), None
    images = every_byte() if options.every_byte else cases(options.seed, options.cases)

    def both(case):
        return case, output([FIRST], case[1]), output(second, case[1])

    with concurrent.futures.ThreadPoolExecutor(os.cpu_count()) as pool:
        for (name, data), ours, theirs in pool.map(both, images):
            kind = " ".join(word for word in name.split() if not word.isdigit())
            counts["images"] += 1
            if ours.startswith(b"7 "):
                counts["faults"] += 1
                faults[ours.split()[1].decode()] += 1
            else:
                counts["listings"] += 1
                counts["listings where some account can act as another"] += act(ours)
                counts["listings of " + kind] += 1
            if ours != theirs:
                counts["differences"] += 1
                differ = differ or (name, data, ours, theirs)
    for name, count in counts.items():
        print(f"{count:6} {name}")
    print("faults by part:", ", ".join(f"{part}: {faults[part]}" for part in sorted(faults)))
    if differ:
        name, data, ours, theirs = differ
        print(f"first difference: {name}\n{data.hex()}\nketrumbis:\n{ours.decode()}\nsecond:\n{theirs.decode()}")
    return differ


class Scripts:
    """Scripts given to both programs, and what was counted of them."""

    def __init__(self):
        self.counts, self.problems, self.lock = collections.Counter(), [], threading.Lock()

    def count(self, name, more=1):
        with self.lock:
            self.counts[name] += more

    def both(self, name, lines, console=CONSOLE):
        """The answers of the second program, after those of both were compared."""
        given = "".join(made + "\n" for made in lines).encode()
        ours, theirs = output([console], given), output([SECOND, "commands"], given)
        answers = theirs.decode().splitlines()
        with self.lock:
            self.counts.update(["scripts", "scripts of " + name.split()[0]])
            self.counts.update("command " + (made.split() or ["(blank)"])[0] for made in lines if word_known(made))
            self.counts.update("answer " + known for known in map(answer_kind, answers) if known)
        if ours != theirs:
            pairs = itertools.zip_longest(ours.decode(errors="replace").splitlines(), answers)
            at = next(at for at, (one, other) in enumerate(pairs) if one != other)
            some = [text.decode(errors="replace").splitlines()[at:at + 1] for text in (ours, theirs)]
            self.problem(name, lines, f"answer line {at}: console {some[0]}, second {some[1]}")
        return answers

    def problem(self, name, lines, text):
        self.problems.append((name, lines, text))


def word_known(made):
    return not made.split() or made.split()[0] in WORDS


WORDS = {"new", *scripts.WORDS, "propose", "propose-member", "withdraw", "list", "row", "unite", "same", "compare",
         "exposure", "can", "witness", "step", "replay", "write", "image", "body", "#"}


def answer_kind(answer):
    words = answer.split()
    if words[0] == "refused":
        return " ".join(words[:3] if words[1] == "7" else words[:2])
    return words[0] if words[0] in ("yes", "no", "accepted", "?", "nothing", "withdrawn", "same", "contains") else None


def compare_witnesses(rng, name, found, console):
    """Steps of both programs to the same rights: whole, with each left out, and damaged, replayed by both."""
    larger = rng.random() < 0.1
    made, before, questions = (scripts.large_questions if larger else scripts.deep)(rng, 7)
    can = found.both(name, before + [scripts.line("can", *fields) for fields in questions], console)[len(before):]
    asked = before + [scripts.line("witness", *fields) for fields in questions]
    given = "".join(text + "\n" for text in asked).encode()
    for program in [[console]] if larger else [[console], [SECOND, "steps"]]:
        answers = output(program, given).decode().splitlines()[len(before):]
        lists = scripts.step_lists(answers)
        found.count("command witness", len(questions))
        if [steps is not None for steps in lists] != [answer == "yes" for answer in can]:
            found.problem(name, asked, f"{program[0].name}: witness {answers}, can {can}")
            continue
        for steps, fields in zip(lists, questions):
            if steps is not None:
                replay_witness(rng, name, found, console, before, steps, fields, made)


def replay_witness(rng, name, found, console, before, steps, fields, made):
    lines, expected = list(before), {}

    def replay(these, answer=None):
        lines.extend(scripts.replayed(these, fields))
        expected[len(lines) - 1] = answer

    replay(steps, "accepted")
    for at in range(len(steps)):
        replay(steps[:at] + steps[at + 1:], "refused")
    for _ in range(3 if steps else 0):
        replay(scripts.damaged(rng, steps, made, lambda: rng.choice(steps)))
    answers = found.both(name, lines, console)
    found.count("witnesses")
    found.count(f"witnesses of {min(len(steps), 8)} steps" + " or more" * (len(steps) >= 8))
    found.count("lists with a step of a witness left out", len(steps))
    for at, answer in expected.items():
        if answer and answers[at].split()[0] != answer:
            found.problem(name, lines, f"line {at}: {answers[at]}, though {answer} is expected")


def compare_scripts(options):
    found = Scripts()

    def compare(case):
        name = f"{case[0]} {case[1]}"
        rng = random.Random(f"script {name}")
        if rng.random() < 0.12:
            compare_witnesses(rng, f"witnesses {name}", found, options.console)
        else:
            kind, lines = scripts.script(rng, examples())
            found.both(f"{kind} {name}", lines, options.console)

    numbers = [(seed, number) for seed in options.seed for number in range(options.cases)]
    with concurrent.futures.ThreadPoolExecutor(options.jobs) as pool:
        list(pool.map(compare, numbers))
    for name, count in sorted(found.counts.items()):
        print(f"{count:7} {name}")
    print(f"{len(found.problems):7} differences")
    for name, _, text in sorted(found.problems)[1:options.show]:
        print(f"difference: {name}: {text}")
    if found.problems:
        name, lines, text = min(found.problems)
        print(f"first difference: {name}: {text}\n" + "\n".join(lines))
    return found.problems


def write_corpus():
    text = corpus.text().encode()
    answers = output([SECOND, "commands"], text)
    for name, data in (("stdin", text), ("stdout", answers)):
        (ROOT / "crates/console" / name).write_bytes(data)
    print(f"{text.count(b'# case ')} cases, {len(text)} bytes of commands, {len(answers)} bytes of answers")


def main():
    options = argparse.ArgumentParser(description=__doc__)
    options.add_argument("--as-built", action="store_true", help="build nothing")
    options.add_argument("--cases", type=int, default=200, help="cases for each seed")
    options.add_argument("--extent", choices=["full", "short"], help="what the second program plants; else by size")
    options.add_argument("--every-byte", action="store_true", help="instead: the examples with every byte changed")
    options.add_argument("--commands", action="store_true", help="instead: scripts of commands, given to `console`")
    options.add_argument("--console", type=pathlib.Path, default=CONSOLE, help="another place of the program `console`")
    options.add_argument("--jobs", type=int, default=os.cpu_count(), help="scripts at a time")
    options.add_argument("--show", type=int, default=10, help="how many differences are named")
    options.add_argument("--corpus", action="store_true", help="instead: write the fixed scripts of crates/console")
    options.add_argument("seed", nargs="*", default=["1", "2", "3"])
    options = options.parse_args()
    if not options.as_built:
        build_second()
        if not options.corpus and options.console == CONSOLE:
            build_proved("console" if options.commands else "ketrumbis")
    if options.corpus:
        return write_corpus()
    if (compare_scripts if options.commands else compare_images)(options):
        sys.exit(1)
    print("no difference")


if __name__ == "__main__":
    main()
