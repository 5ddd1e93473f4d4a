#!/usr/bin/env python3
"""Measures how long the proved program and the plain one take to list books of several kinds and sizes: see README.md"""

import argparse
import math
import os
import pathlib
import random
import statistics
import subprocess
import sys
import tempfile

HERE = pathlib.Path(__file__).resolve().parent
ROOT = HERE.parent
PROVED = ROOT / "crates/bench/out/bench"
PLAIN = HERE / "out/plain"
PROGRAMS = [PROVED, PLAIN]

CONTAINER, TABLE, PROCEDURE, ACCOUNT, ROLE = range(5)
RECORDS = [4, 2, 4, 2, 7]
PUBLIC, SYSADMIN, CALLER = 1, 2, 255
ALTER, EXECUTE, IMPERSONATE = 4, 5, 6


def build():
    with open(ROOT / "crates/bench/stdin", "rb") as image:
        made = subprocess.run(["rt", "run"], cwd=PROVED.parent.parent, stdin=image, capture_output=True)
    if made.returncode != 0:
        sys.exit(made.stderr.decode())
    PLAIN.parent.mkdir(exist_ok=True)
    subprocess.run(["rustc", "-O", "--edition", "2024", "-o", PLAIN, HERE / "plain.rs"], check=True)


class Source:
    """Numbers that look like chance and are the same at each run."""

    def __init__(self, seed):
        self.state = seed

    def below(self, n):
        self.state = (self.state * 1664525 + 1013904223) % 2**32
        return (self.state >> 24) % n


class Book:
    """Lists of records, each taken or dropped as a book does; the entities are all that a book of the size may hold.

    The size is in quarters of a full book. The entities are root, public and sysadmin, accounts, roles, containers with
    mode 1, tables, procedures. `owner` gives the owner of a container by its place among them."""

    def __init__(self, size, owner):
        self.size = size
        self.entities = [(CONTAINER, 0, SYSADMIN, 0), (ROLE, 0, SYSADMIN, 0), (ROLE, 0, SYSADMIN, 0)]
        self.links, self.rights, self.members, self.lines = [], {}, [], []
        self.below = {}
        self.accounts = [self.declare(ACCOUNT, 0, len(self.entities)) for _ in range(4 * size)]
        self.roles = [self.declare(ROLE, 0, SYSADMIN) for _ in range(4 * size - 2)]
        places = 4 * size - 1
        self.containers = [self.declare(CONTAINER, 0, owner(self, place), 1) for place in range(places)]
        inside = lambda kind, i: self.declare(kind, self.containers[i % places], owner(self, i % places))
        self.tables = [inside(TABLE, i) for i in range(4 * size)]
        self.procedures = [inside(PROCEDURE, i) for i in range(8 * size)]

    def declare(self, kind, parent, owner, mode=0):
        self.entities.append((kind, parent, owner, mode))
        return len(self.entities) - 1

    def scaled(self, count):
        return count * self.size // 4

    def link(self, lower, upper):
        at_or_below = lambda x, y: x == y or any(at_or_below(x, low) for low, high in self.links if high == y)
        if not at_or_below(upper, lower) and (lower, upper) not in self.links and len(self.links) < 64:
            self.links.append((lower, upper))

    def grant(self, principal, entity, right, option):
        record = principal, entity, right
        if record in self.rights or len(self.rights) < 256:
            self.rights[record] = self.rights.get(record, 0) | option

    def join(self, account, role):
        if (account, role) not in self.members and len(self.members) < 128:
            self.members.append((account, role))

    def line(self, at, runner, called):
        record = (*at, runner, *called)
        if record not in self.lines and len(self.lines) < 256:
            self.lines.append(record)

    def image(self):
        rights = [(*record, option) for record, option in self.rights.items()]
        contents, at = b"", 20
        bodies = [self.entities, self.links, rights, self.members, self.lines]
        for size, body in zip(RECORDS, bodies):
            contents += at.to_bytes(2, "big") + len(body).to_bytes(2, "big")
            at += size * len(body)
        return contents + b"".join(bytes(record) for body in bodies for record in body)

    def code(self, fits=lambda entity: True):
        """The procedures and then the triggers of the tables, of those entities that fit."""
        procedures = [procedure(p) for p in self.procedures if fits(p)]
        return procedures + [triggers(t, event) for t in self.tables if fits(t) for event in (1, 2, 3)]


def procedure(entity):
    return 0, entity, 0


def triggers(entity, event):
    return 1, entity, event


def each_account(book, place):
    return book.accounts[place % min(15, len(book.accounts))]


def random_book(size, seed, links, rights, members, lines, owner=each_account):
    """Records by chance."""
    book, source = Book(size, owner), Source(seed)
    pick = lambda some: some[source.below(len(some))]

    def place():
        if source.below(2) == 0:
            return procedure(pick(book.procedures))
        return triggers(pick(book.tables), 1 + source.below(3))

    for _ in range(book.scaled(links)):
        book.link(pick(book.roles), pick(book.roles))
    for _ in range(book.scaled(rights)):
        principal = pick(book.accounts + book.roles)
        entity = 3 + source.below(len(book.entities) - 3)
        book.grant(principal, entity, source.below(7), source.below(2))
    for _ in range(book.scaled(members)):
        book.join(pick(book.accounts), pick(book.roles))
    for _ in range(book.scaled(lines)):
        at = place()
        runner = CALLER if source.below(2) == 0 else pick(book.accounts)
        book.line(at, runner, place())
    return book


def mixed(size):
    """Many records by chance."""
    return random_book(size, 1, links=40, rights=600, members=80, lines=300)


def sparse(size):
    """The same with few rights and members."""
    return random_book(size, 2, links=8, rights=24, members=8, lines=300)


def add_impersonation(book):
    """Each account can impersonate the one before it alone."""
    for account, before in zip(book.accounts[1:], book.accounts):
        book.grant(account, before, IMPERSONATE, 0)


def add_falling_lines(book):
    """A row of objects under accounts in falling order."""
    code = book.code()
    for i, (at, called) in enumerate(zip(code, code[1:])):
        book.line(at, book.accounts[-1 - i % len(book.accounts)], called)


def dense(size):
    """Everyone may do everything, and one account owns all."""
    book = Book(size, lambda book, place: book.accounts[0])
    for right in range(7):
        book.grant(PUBLIC, 0, right, 1)
    for account in book.accounts:
        for other in book.accounts:
            book.grant(account, other, IMPERSONATE, 1)
    code = book.code()
    for step in range(1, 5):
        for i, at in enumerate(code):
            book.line(at, CALLER, code[(i + step) % len(code)])
    return book


def chain(size):
    """Accounts and lines that lead to one another, each time to one that has had its turn."""
    book = Book(size, lambda book, place: SYSADMIN)
    add_impersonation(book)
    book.grant(PUBLIC, book.procedures[0], EXECUTE, 0)
    add_falling_lines(book)
    return book


def closed(size):
    """The same accounts, who may alter all code and enter none."""
    book = Book(size, lambda book, place: SYSADMIN)
    add_impersonation(book)
    for container in book.containers:
        book.grant(PUBLIC, container, ALTER, 0)
    add_falling_lines(book)
    return book


def relay_owner(book, place):
    """The last containers are those of the gates, which hold a trigger for each account."""
    gates = -(-len(book.accounts) // 3)
    return SYSADMIN if place < 4 * book.size - 1 - gates else book.roles[0]


def relay(size):
    """Each account in turn goes along a row of objects, one at each sweep, and hands over to the next."""
    book = Book(size, relay_owner)
    row = book.code(lambda entity: book.entities[entity][2] == SYSADMIN)
    gates = [triggers(t, event) for t in book.tables if book.entities[t][2] != SYSADMIN for event in (1, 2, 3)]
    book.grant(PUBLIC, row[0][1], EXECUTE, 0)
    for k, account in enumerate(book.accounts):
        _, table, event = gate = gates[k]
        book.grant(account, table, event, 0)
        book.line(row[-1], CALLER, gate)
        book.line(gate, book.accounts[(k + 1) % len(book.accounts)], row[0])
    for at, called in reversed(list(zip(row, row[1:]))):
        book.line(at, CALLER, called)
    return book


KINDS = [mixed, sparse, dense, chain, closed, relay]
QUARTERS = [1, 2, 3, 4]


def by_chance(number):
    """A book of a quarter or a half of the full size with some records by chance."""
    rng = random.Random(number)
    owner = rng.choice([each_account, lambda book, place: SYSADMIN, lambda book, place: PUBLIC, relay_owner])
    tries = [rng.randrange(most) for most in rng.choice([(4, 20, 4, 20), (12, 60, 12, 60), (40, 300, 40, 300)])]
    return random_book(1 + number % 2, number, *tries, owner)


def check(count, folder):
    """Compares the programs on books by chance."""
    path = folder / "chance.image"
    for number in range(count):
        path.write_bytes(by_chance(number).image())
        compare(path)
    print(f"{count} books by chance: the programs printed the same listings")


def run(program, path, times):
    """What a run prints, and its CPU seconds."""
    with open(path, "rb") as image:
        child = subprocess.Popen([program, str(times)], stdin=image, stdout=subprocess.PIPE)
        printed = child.stdout.read()
        _, status, usage = os.wait4(child.pid, 0)
        child.returncode = os.waitstatus_to_exitcode(status)
    if child.returncode != 0:
        sys.exit(f"{program.name} {times}: exit {child.returncode}")
    return printed, usage.ru_utime + usage.ru_stime


def compare(path):
    """Stops where the programs print different listings."""
    listings = {run(program, path, 1)[0] for program in PROGRAMS}
    if len(listings) > 1:
        sys.exit(f"{path}: the listings differ")


def times_for(program, path, seconds):
    """How many listings take about so many seconds."""
    times = 2
    while True:
        _, took = run(program, path, times)
        if took > seconds / 8 or times > 10**7:
            return max(2, round(times * seconds / took))
        times *= 4


def measure(path, rounds, seconds):
    """The CPU seconds of a listing by each program, from its fastest runs; runs of the two take turns."""
    compare(path)
    counts = {program: times_for(program, path, seconds) for program in PROGRAMS}
    once, many = {program: [] for program in PROGRAMS}, {program: [] for program in PROGRAMS}
    for _ in range(rounds):
        for program, times in counts.items():
            once[program].append(run(program, path, 1)[1])
            many[program].append(run(program, path, times)[1])
    return [(min(many[program]) - min(once[program])) / (times - 1) for program, times in counts.items()]


def growth(pairs):
    """How the time grows with the number of entities: the exponent that fits best."""
    xs, ys = [math.log(n) for n, _ in pairs], [math.log(t) for _, t in pairs]
    return statistics.linear_regression(xs, ys).slope


def report(taken):
    """Prints what was measured: for each kind and number of entities the seconds of both programs."""
    print(f"{'kind':8}{'entities':>9}{'proved ms':>12}{'plain ms':>12}{'ratio':>9}")
    for (kind, entities), (proved, plain) in taken.items():
        print(f"{kind:8}{entities:9}{proved * 1e3:12.4f}{plain * 1e3:12.4f}{proved / plain:9.2f}")
    full = [proved / plain for (_, entities), (proved, plain) in taken.items() if entities == 24 * max(QUARTERS)]
    if full:
        print(f"\nfull books: geometric mean of the ratios {statistics.geometric_mean(full):.2f}, worst {max(full):.2f}")
    every = [proved / plain for proved, plain in taken.values()]
    print(f"all books:  geometric mean of the ratios {statistics.geometric_mean(every):.2f}, worst {max(every):.2f}")


def report_growth(taken):
    """Prints by what the time is multiplied from each size to the next, and the exponent that fits."""
    for which, program in enumerate(["proved", "plain"]):
        print(f"\n{program}: by what the time grows from each size to the next, and the power of the size that fits")
        for kind in dict.fromkeys(kind for kind, _ in taken):
            pairs = [(n, seconds[which]) for (name, n), seconds in taken.items() if name == kind]
            steps = "".join(f"{b / a:9.2f}" for (_, a), (_, b) in zip(pairs, pairs[1:]))
            print(f"{kind:8}{steps}{growth(pairs):9.2f}")


def main():
    options = argparse.ArgumentParser(description=__doc__)
    options.add_argument("--as-built", action="store_true", help="build nothing")
    options.add_argument("--rounds", type=int, default=3, help="runs of which the fastest counts")
    options.add_argument("--seconds", type=float, default=0.25, help="CPU seconds that a run takes")
    options.add_argument("--check", type=int, metavar="COUNT", help="only compare listings of so many books by chance")
    options.add_argument("--images", type=pathlib.Path, help="only write the images into this folder")
    options.add_argument("kind", nargs="*", help="kinds of books; else all")
    options = options.parse_args()
    kinds = [kind for kind in KINDS if not options.kind or kind.__name__ in options.kind]
    books = [(kind.__name__, kind(size)) for kind in kinds for size in QUARTERS]
    with tempfile.TemporaryDirectory() as made:
        folder = options.images or pathlib.Path(made)
        folder.mkdir(exist_ok=True)
        paths = {(kind, len(book.entities)): folder / f"{kind}{len(book.entities)}.image" for kind, book in books}
        for path, (_, book) in zip(paths.values(), books):
            path.write_bytes(book.image())
        if options.images:
            return
        if not options.as_built:
            build()
        if options.check:
            return check(options.check, folder)
        taken = {key: measure(path, options.rounds, options.seconds) for key, path in paths.items()}
    report(taken)
    report_growth(taken)


if __name__ == "__main__":
    main()
