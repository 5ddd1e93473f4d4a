"""Books put together at random, and their images, good and damaged."""

import pathlib
import random

HERE = pathlib.Path(__file__).resolve().parent
ROOT = HERE.parent
SECOND = HERE / "out/second"

CONTAINER, TABLE, PROCEDURE, ACCOUNT, ROLE = range(5)
MOST_OF_KIND = [16, 16, 32, 16, 16]
SIZES = [4, 2, 4, 2, 7]
MOST = [96, 64, 256, 128, 256]
NEW = [(0, 0, 2, 0), (4, 0, 2, 0), (4, 0, 2, 0)]
CALLER = 255


def image(bodies):
    """The bytes of five lists of records."""
    contents, at = b"", 20
    for size, body in zip(SIZES, bodies):
        contents += at.to_bytes(2, "big") + len(body).to_bytes(2, "big")
        at += size * len(body)
    return contents + b"".join(bytes(record) for body in bodies for record in body)


class Draft:
    """A book that is put together at random by the rules of the building calls."""

    def __init__(self, rng, want, records):
        self.rng = rng
        self.entities = list(NEW)
        todo = [kind for kind in range(5) for _ in range(want[kind])]
        rng.shuffle(todo)
        if rng.random() < 0.7:  # accounts first can own more
            todo.sort(key=lambda kind: kind != ACCOUNT)
        for kind in todo:
            self.declare(kind)
        self.sysadmin = rng.random() < 0.15
        links, rights, members, lines = records
        self.links = self.gather(links, self.link)
        self.rights = self.gather(rights, self.right, 3)
        self.members = self.gather(members, self.member)
        self.lines = self.gather(lines, self.line)

    def bodies(self):
        return [self.entities, self.links, self.rights, self.members, self.lines]

    def of(self, *kinds):
        return [e for e, record in enumerate(self.entities) if record[0] in kinds]

    def declare(self, kind):
        rng, number = self.rng, len(self.entities)
        if len(self.of(kind)) == MOST_OF_KIND[kind]:
            return
        accounts = self.of(ACCOUNT)
        owner = rng.choice(accounts if accounts and rng.random() < 0.85 else self.of(ACCOUNT, ROLE))
        parent, mode = 0, 0
        if kind == ACCOUNT:
            owner = number
        elif kind != ROLE:
            fit = [c for c in self.of(CONTAINER) if kind == CONTAINER or self.entities[c][3] == 1]
            if not fit:
                return self.declare(CONTAINER)
            parent = rng.choice(fit)
            mode = int(kind == CONTAINER and rng.random() < 0.75)
            if self.entities[parent][3] == 1:
                owner = self.entities[parent][2]
        self.entities.append((kind, parent, owner, mode))

    def gather(self, count, make, key=None):
        found = {}
        for _ in range(3 * count):
            record = make()
            if record is not None and len(found) < count:
                found.setdefault(record[:key], record)
        return list(found.values())

    def link(self):
        # Upward from 0, 1, 3, 4, ... in an order of their numbers by a fixed shuffle; public in the middle.
        roles = [r for r in self.of(ROLE) if r != 2]
        random.Random(len(self.entities)).shuffle(roles)
        if len(roles) < 2:
            return (1, 2)
        low, high = sorted(self.rng.sample(range(len(roles)), 2))
        return (roles[low], 2 if self.rng.random() < 0.05 else roles[high])

    def right(self):
        rng = self.rng
        who = [p for p in self.of(ACCOUNT, ROLE) if p > 2] * 3 + [1]
        right = rng.choice([1, 2, 3, 4, 4, 4, 4, 5, 5, 5, 6, 6, 6, 0])
        kinds = {4: (CONTAINER, TABLE, PROCEDURE, ROLE), 5: (CONTAINER, PROCEDURE), 6: (ACCOUNT,)}.get(right, (TABLE,))
        fit = self.of(*kinds) if rng.random() < 0.9 else list(range(len(self.entities)))
        fit = [e for e in fit if e != 0 or rng.random() < 0.05]
        if not fit:
            return None
        return (rng.choice(who), rng.choice(fit), right, int(rng.random() < 0.3))

    def member(self):
        accounts = self.of(ACCOUNT)
        role = self.rng.choice(self.of(ROLE))
        if not accounts or (role == 2 and not self.sysadmin):
            return None
        return (self.rng.choice(accounts), role)

    def place(self):
        tables, procedures = self.of(TABLE), self.of(PROCEDURE)
        if procedures and (not tables or self.rng.random() < 0.6):
            return (0, self.rng.choice(procedures), 0)
        return (1, self.rng.choice(tables), self.rng.randint(1, 3)) if tables else None

    def line(self):
        at, called, accounts = self.place(), self.place(), self.of(ACCOUNT)
        if at is None:
            return None
        runner = self.rng.choice(accounts) if accounts and self.rng.random() < 0.6 else CALLER
        return (*at, runner, *called)


class Woven(Draft):
    """A book in which two or three principals own all containers, and few others may alter and enter what is theirs."""

    last = None
    wide = None

    def declare(self, kind):
        super().declare(kind)
        made, parent, owner, mode = self.entities[-1]
        if made == CONTAINER and self.entities[parent][3] == 0:
            owners = [p for p in self.of(ACCOUNT, ROLE) if p > 2][: 2 + len(self.entities) % 2]
            self.entities[-1] = (made, parent, self.rng.choice(owners or [owner]), mode)

    def right(self):
        rng = self.rng
        if self.wide is None:
            self.wide = rng.choice([0.1, 0.3, 0.8])
        if self.last and rng.random() < 0.6:
            who, entity = self.last
        else:
            owners = {record[2] for record in self.entities if record[0] == CONTAINER}
            free = [p for p in self.of(ACCOUNT, ROLE) if p > 2 and p not in owners] or self.of(ACCOUNT)
            fit = self.of(PROCEDURE, TABLE) + (self.of(CONTAINER)[1:] if rng.random() < self.wide else [])
            if not fit:
                return None
            who, entity = rng.choice(free), rng.choice(fit)
        self.last = who, entity
        right = rng.choice([1, 4, 4, 5, 5] if self.entities[entity][0] == TABLE else [4, 5])
        return (who, entity, right, int(rng.random() < 0.35))

    def line(self):
        made = super().line()
        if made and self.rng.random() < 0.7 and self.entities[made[1]][2] == self.entities[made[5]][2]:
            return None
        return made


def woven(rng):
    want = [rng.randint(2, 4), rng.randint(0, 2), rng.randint(1, 4), rng.randint(3, 5), rng.randint(0, 2)]
    return Woven(rng, want, (rng.randint(0, 2), rng.randint(2, 9), rng.randint(0, 3), rng.randint(1, 9)))


def small(rng):
    want = [rng.randint(1, 3), rng.randint(0, 2), rng.randint(0, 3), rng.randint(1, 4), rng.randint(0, 3)]
    some = rng.choice([2, 4, 7, 12])
    return Draft(rng, want, (rng.randint(0, 4), rng.randint(1, some), rng.randint(0, 3), rng.randint(0, some + 2)))


def large(rng):
    want = [rng.randint(2, 9), rng.randint(1, 8), rng.randint(1, 12), rng.randint(4, 9), rng.randint(1, 9)]
    return Draft(rng, want, (rng.randint(0, 20), rng.randint(4, 24), rng.randint(0, 10), rng.randint(0, 40)))


def full_size(rng):
    """A book with all kinds full, and lists that are full or sparse."""
    want = [20, 20, 40, 16, 16]
    records = rng.choice([(64, 256, 128, 256), (10, 20, 4, 60), (4, 12, 2, 120)])
    return (Draft if rng.random() < 0.5 else Woven)(rng, want, records)


def lists_changed(rng):
    """The lists of a good book with a few fields, places or records changed."""
    bodies = [list(body) for body in (large if rng.random() < 0.3 else small)(rng).bodies()]
    count = len(bodies[0])
    for _ in range(rng.choice([1, 1, 1, 2, 3])):
        some = [b for b in bodies if b and (b is not bodies[0] or rng.random() < 0.5)]
        body = rng.choice(some or bodies[:1])
        at, way = rng.randrange(len(body)), rng.random()
        if way < 0.6:
            record = list(body[at])
            field = rng.choice([0, 1, 2, 3, 4, 5, 6, 7, rng.randrange(count + 2), 255, 254])
            record[rng.randrange(len(record))] = field
            body[at] = tuple(record)
        elif way < 0.75:
            record = list(rng.choice(body))
            if len(record) == 4 and rng.random() < 0.5:
                record[3] ^= 1
            body.insert(rng.randrange(at, len(body) + 1), tuple(record))
        elif way < 0.9:
            body.insert(at, body.pop(rng.randrange(len(body))))
        else:
            del body[at]
    return image(bodies)


def any_records(rng):
    """Three first entities and then records of small numbers."""
    bodies = [list(NEW), [], [], [], []]
    for _ in range(rng.randint(0, 5)):
        n = len(bodies[0])
        kind = rng.randrange(5)
        parent, owner = rng.choice([0, 0, 0, rng.randrange(n)]), rng.choice([n, 2, rng.randrange(n)])
        bodies[0].append((kind, parent, owner, rng.choice([0, 0, 1])))
    n = len(bodies[0])
    for part in range(1, 5):
        for _ in range(rng.choice([0, 0, 1, 2])):
            bodies[part].append(tuple(rng.choice([0, 1, rng.randrange(n + 1), 255]) for _ in range(SIZES[part])))
    return image(bodies)


def full_lists(rng):
    """A list or a kind of entity at its limit, or one past it."""
    past = rng.random() < 0.5
    which = rng.randrange(9)
    bodies = [list(NEW), [], [], [], []]
    names = bodies[0]
    names.append((ACCOUNT, 0, 3, 0))
    names.append((CONTAINER, 0, 3, 1))
    made = {ACCOUNT: 1, CONTAINER: 2, ROLE: 2}
    more = {5: {ROLE: 14}, 6: {TABLE: 4, ACCOUNT: 2}, 7: {ACCOUNT: 9, ROLE: 14}, 8: {TABLE: 2, PROCEDURE: 6}}
    fill = more.get(which, {})
    for kind in range(5):
        need = MOST_OF_KIND[kind] + past if kind == which else made.get(kind, 0) + fill.get(kind, 0)
        for _ in range(need - made.get(kind, 0)):
            n = len(names)
            parent = 4 if kind in (TABLE, PROCEDURE) else 0
            names.append((kind, parent, n if kind == ACCOUNT else 3, int(kind == CONTAINER)))
    of = lambda kind: [e for e, record in enumerate(names) if record[0] == kind]
    if which == 5:
        roles = [r for r in of(ROLE) if r != 2]
        pool = [(a, b) for i, a in enumerate(roles) for b in roles[i + 1:]]
    elif which == 6:
        every = [(p, e, r) for p in of(ACCOUNT) + of(ROLE) for e in range(len(names)) for r in range(7)]
        pool = [(*record, rng.randrange(2)) for record in every]
    elif which == 7:
        pool = [(a, r) for a in of(ACCOUNT) for r in of(ROLE)]
    else:
        places = [(0, p, 0) for p in of(PROCEDURE)] + [(1, t, r) for t in of(TABLE) for r in (1, 2, 3)]
        pool = [(*x, w, *y) for x in places for y in places for w in of(ACCOUNT) + [CALLER]]
    if which >= 5:
        rng.shuffle(pool)
        bodies[which - 4] = pool[: MOST[which - 4] + past]
    return image(bodies)


def bytes_damaged(rng, examples):
    data = bytearray(rng.choice(examples) if rng.random() < 0.2 else image(small(rng).bodies()))
    way = rng.random()
    if way < 0.55:
        for _ in range(rng.choice([1, 1, 2, 4])):
            at = rng.randrange(min(20, len(data)) if rng.random() < 0.3 else len(data))
            data[at] = rng.choice([rng.randrange(256), rng.randrange(8), (data[at] + 1) % 256, (data[at] - 1) % 256])
    elif way < 0.75:
        del data[rng.randrange(len(data)):]
    elif way < 0.95:
        data += rng.randbytes(rng.choice([1, 2, 4, 7, 300, 3604, 5000, 70000]))
    else:
        data = bytearray(rng.randbytes(rng.randrange(60)))
    return bytes(data)
