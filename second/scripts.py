"""Scripts of commands put together at random, each a list of lines."""

import random
import subprocess

import books
from books import ACCOUNT, CALLER, CONTAINER, MOST_OF_KIND, NEW, PROCEDURE, ROLE, SECOND, TABLE, Draft

WORDS = ["declare", "link", "grant", "join", "line"]


def line(*words):
    return " ".join(str(word) for word in words)


def ask(lines, mode="commands"):
    """The answers of the second program."""
    script = "".join(text + "\n" for text in lines).encode()
    return subprocess.run([SECOND, mode], input=script, capture_output=True, check=True).stdout.decode().splitlines()


def built(draft):
    """The building calls of a draft, each a word and its numbers."""
    bodies = draft.bodies()
    bodies[0] = bodies[0][len(NEW):]
    return [(word, *record) for word, body in zip(WORDS, bodies) for record in body]


def build(draft):
    return [line(*call) for call in built(draft)]


def some_byte(rng, count):
    return rng.choice([rng.randrange(count + 2), rng.randrange(8), rng.randrange(256), 255, 254, count, count - 1])


def changed(rng, call, count):
    """A call with a field or two changed, in another order, or under another word."""
    word, *fields = call
    way = rng.random()
    if way < 0.75:
        for _ in range(rng.choice([1, 1, 1, 2])):
            fields[rng.randrange(len(fields))] = some_byte(rng, count)
    elif way < 0.9:
        one, other = rng.sample(range(len(fields)), 2)
        fields[one], fields[other] = fields[other], fields[one]
    elif word in ("grant", "propose"):
        fields[3] ^= 1
    else:
        fields = [some_byte(rng, count) for _ in fields]
    return (word, *fields)


def malformed(rng, text):
    """A line that is no command, or the same one with more spaces."""
    words = text.split()
    way = rng.randrange(9)
    if way == 0:
        words.append(rng.choice(["0", "3", "x", "new"]))
    elif way == 1:
        words.pop()
    elif way == 2:
        words[0] = rng.choice([words[0].upper(), words[0] + "s", words[0][1:] or "x", "propose-", "?", "help"])
    elif way < 7:
        wrong = ["256", "300", "4294967296", "9" * 23, "-1", "+1", "1.", "0x1", "a", "f", "1a", "\t1"]
        at = rng.randrange(1, len(words)) if len(words) > 1 else 0
        words[at] = rng.choice(wrong) if way < 6 else rng.choice(["0", "00"]) + words[at]
    else:
        return rng.choice(["", " ", "   "]) + rng.choice([" ", "  "]).join(words) + rng.choice(["", " ", "  "])
    return " ".join(words)


def with_wrong_ones(rng, draft, share):
    """The building calls of a draft, and among them some that are wrong, or made before."""
    calls, count = built(draft), len(draft.entities)
    names = [call for call in calls if call[0] == "declare"]
    others = [call for call in calls if call[0] != "declare"]
    if rng.random() < 0.5:
        rng.shuffle(others)
    early = [others.pop() for _ in range(len(others) // 3)] if rng.random() < 0.3 else []
    for call in early:
        names.insert(rng.randrange(len(names) + 1), call)
    lines, steady = [], rng.random() < 0.8
    for at, call in enumerate(names + others):
        wrong = rng.random() < share and not (steady and at < len(names))
        if wrong and rng.random() < 0.5:
            lines.append(line(*changed(rng, rng.choice(calls if rng.random() < 0.3 else [call]), count)))
        lines.append(line(*call))
        if wrong and rng.random() < 0.7:
            lines.append(line(*(call if rng.random() < 0.4 else changed(rng, call, count))))
        if rng.random() < share / 6:
            lines.append(malformed(rng, line(*call)))
    return lines


class Asker:
    """Questions about a draft, mostly of accounts that stand."""

    def __init__(self, rng, draft):
        self.rng, self.draft = rng, draft
        self.accounts = draft.of(ACCOUNT) or [3]
        self.count = len(draft.entities)

    def account(self):
        return some_byte(self.rng, self.count) if self.rng.random() < 0.06 else self.rng.choice(self.accounts)

    def fields(self):
        """Account, sense, entity, right of a question, mostly about what can make a difference."""
        rng, draft = self.rng, self.draft
        account, sense = rng.choice(self.accounts), rng.randrange(2)
        right = rng.choice([1, 2, 3, 4, 4, 5, 5, 6, 6, 6, 0])
        kinds = {6: [ACCOUNT], 5: [PROCEDURE, CONTAINER], 4: [TABLE, PROCEDURE, ROLE, CONTAINER]}.get(right, [TABLE])
        fit = draft.of(*kinds) if rng.random() < 0.8 else range(self.count)
        fields = [account, sense, rng.choice(fit or [0]), right]
        if rng.random() < 0.04:
            fields[rng.randrange(4)] = some_byte(rng, self.count)
        return fields

    def question(self):
        word = self.rng.choice(["list", "row", "exposure", "unite", "same", "compare", "can", "can", "can", "write"])
        if word in ("list", "write"):
            return word
        if word == "can":
            return line(word, *self.fields())
        return line(word, *(self.account() for _ in range(1 if word in ("row", "exposure") else 2)))

    def proposal(self):
        """A proposal, or none."""
        made = self.draft.right() if self.rng.random() < 0.7 else self.draft.member()
        if made is None:
            return []
        call = ("propose" if len(made) == 4 else "propose-member", *made)
        return [line(*(changed(self.rng, call, self.count) if self.rng.random() < 0.12 else call))]


class Walk:
    """A list of steps of a session that are allowed one after the other, chosen at random."""

    def __init__(self, rng, draft, before, opener):
        self.rng, self.draft, self.before, self.opener = rng, draft, before, opener
        self.acted, self.entered = [opener], []
        self.lines = [(record[:3], record[3], ("call", *record[4:])) for record in draft.lines]
        self.steps = []
        made_in = [(2, c, 0) for c in draft.of(CONTAINER) if draft.entities[c][3] == 1]
        triggers = [(1, t, right) for t in draft.of(TABLE) for right in (1, 2, 3)]
        self.objects = [(0, p, 0) for p in draft.of(PROCEDURE)] + triggers + made_in
        self.accounts, self.roles = draft.of(ACCOUNT), draft.of(ROLE)

    def action(self):
        rng = self.rng
        way = rng.random()
        if self.objects and way < 0.35:
            return ("call", *rng.choice(self.objects))
        if way < 0.85:
            entity, right = rng.randrange(len(self.draft.entities)), rng.randrange(7)
            if rng.random() < 0.4:
                entity, right = rng.choice(self.accounts), 6
            elif self.draft.rights and rng.random() < 0.4:
                _, entity, right, _ = rng.choice(self.draft.rights)
            principal = rng.choice(self.accounts + self.roles)
            return ("grant", principal, entity, right, rng.randrange(2))
        return ("join", rng.choice(self.accounts), rng.choice(self.roles))

    def candidate(self):
        rng = self.rng
        a, kind = rng.choice(self.acted), rng.choice(["switch", "do", "do", "do", "plant", "plant", "follow", "follow"])
        places = [place for place, _ in self.entered]
        if kind == "switch":
            return ("switch", a, rng.choice(self.accounts))
        if kind == "follow":
            lines = self.lines if rng.random() < 0.4 else self.lines[len(self.draft.lines):]
            fit = [(v, l) for l in lines for place, v in self.entered if l[0] == place]
            if fit:
                v, (place, runner, action) = rng.choice(fit)
                return ("follow", v, *place, runner, *action)
        if kind == "plant" and self.objects:
            place = rng.choice(places if places and rng.random() < 0.7 else self.objects)
            runner = CALLER if rng.random() < 0.6 else rng.choice(self.accounts)
            return ("plant", a, *place, runner, *self.action())
        word, *fields = self.action()
        return (word, a, *fields)

    def tried(self, candidates):
        """Those that are allowed after the steps so far."""
        lines = list(self.before)
        for step in candidates:
            lines += [line("step", *made) for made in self.steps + [step]]
            lines.append(line("replay", self.opener, 0, self.opener, 6))
        answers = [answer for answer in ask(lines) if answer == "accepted" or answer.startswith("refused 8")]
        return [step for step, answer in zip(candidates, answers) if answer == "accepted"]

    def take(self, step):
        word, a, *fields = step
        self.steps.append(step)
        if word == "switch" and fields[0] not in self.acted:
            self.acted.append(fields[0])
        elif word == "call":
            self.entered.append((tuple(fields), a))
        elif word == "plant":
            self.lines.append((tuple(fields[:3]), fields[3], tuple(fields[4:])))
        elif word == "follow" and fields[4] == "call":
            self.entered.append((tuple(fields[5:]), a if fields[3] == CALLER else fields[3]))

    def go(self, most):
        for _ in range(most):
            allowed = {}
            for step in self.tried([self.candidate() for _ in range(30)]):
                allowed.setdefault(tuple(word for word in step if isinstance(word, str)), []).append(step)
            if not allowed:
                break
            follows = [words for words in sorted(allowed) if words[0] == "follow"]
            words = self.rng.choice(follows if follows and self.rng.random() < 0.5 else sorted(allowed))
            self.take(self.rng.choice(allowed[words]))
        return self.steps


def replayed(steps, fields):
    return [line("step", *step) for step in steps] + [line("replay", *fields)]


def damaged(rng, steps, made, more):
    """The list with a step left out, moved, repeated or changed, or with another put in."""
    steps, count = list(steps), len(made.entities)
    way, at = rng.randrange(6), rng.randrange(len(steps) + 1)
    if way == 0 or not steps:
        steps.insert(at, more())
        return steps
    at = rng.randrange(len(steps))
    if way == 1:
        del steps[at]
    elif way == 2:
        other = rng.randrange(len(steps))
        steps[at], steps[other] = steps[other], steps[at]
    elif way == 3:
        steps.append(steps[at])
    else:
        step = list(steps[at])
        numbers = [place for place, word in enumerate(step) if isinstance(word, int)]
        place = rng.choice(numbers)
        of_kind = made.of(made.entities[step[place]][0]) if step[place] < count else [CALLER]
        step[place] = rng.choice(of_kind) if rng.random() < 0.6 else some_byte(rng, count)
        steps[at] = tuple(step)
    return steps


def draft(rng, kinds=(books.small, books.woven)):
    while True:
        made = rng.choice(kinds)(rng)
        if made.of(ACCOUNT):
            return made


def calls_script(rng):
    made = draft(rng, (books.small, books.small, books.woven, books.large))
    lines = with_wrong_ones(rng, made, rng.choice([0.2, 0.5, 0.9])) + ["write"]
    return lines + (["list"] if len(made.entities) < 20 else [])


def any_script(rng):
    """Calls of any small numbers."""
    sizes = {"declare": 4, "link": 2, "grant": 4, "join": 2, "line": 7, "propose": 4, "propose-member": 2}
    lines, count = [], 3
    for _ in range(rng.randint(3, 30)):
        word = rng.choice(["declare"] * 4 + list(sizes))
        few = [0, 1, 2, 3, 4, 5, count, count - 1, rng.randrange(count + 1)]
        fields = [rng.choice(few) for _ in range(sizes[word])]
        if word == "declare" and rng.random() < 0.7:
            kind = rng.choice([0, 1, 2, 3, 3, 4])
            owner = count if kind == 3 else rng.randrange(count)
            fields = [kind, rng.choice([0, 0, rng.randrange(count)]), owner, int(kind == 0)]
            count += 1
        lines.append(line(word, *fields))
    return lines + ["write", "list"]


def layer_script(rng):
    made = draft(rng)
    calls = build(made)
    early = [text for text in calls if text.startswith("declare") or rng.random() < 0.5]
    late = [text for text in calls if text not in early]
    ask = Asker(rng, made)
    often = rng.choice([0.35, 0.35, 0.8])
    lines = early
    for _ in range(rng.choice([10, 20, 40])):
        pick = rng.random()
        if pick < often:
            lines += ask.proposal()
        elif pick < often + (1 - often) * 0.3:
            lines.append("withdraw")
        elif late and pick < often + (1 - often) * 0.6:
            lines.append(late.pop(0))
        else:
            lines.append(ask.question())
    return lines + ["list", "write"]


def question_script(rng):
    made = draft(rng)
    ask = Asker(rng, made)
    lines = build(made)
    for _ in range(rng.randint(4, 14)):
        lines.append(ask.question())
        if rng.random() < 0.06:
            lines.append(malformed(rng, lines[-1]))
    return lines


def replay_script(rng):
    made = draft(rng, (books.small, books.woven) if rng.random() < 0.93 else (books.large,))
    ask = Asker(rng, made)
    lines = build(made)
    for _ in range(rng.randint(0, 3)):
        lines += ask.proposal()
    before = list(lines)
    for _ in range(rng.randint(1, 2)):
        walk = Walk(rng, made, before, rng.choice(made.of(ACCOUNT)))
        steps = walk.go(rng.randint(1, 12))
        ask.accounts = [walk.opener]
        lines += replayed(steps, ask.fields()) + replayed(steps, [walk.opener, 0, rng.choice(walk.acted), 6])
        for _ in range(rng.randint(1, 4)):
            lines += replayed(damaged(rng, steps, made, walk.candidate), ask.fields())
        if rng.random() < 0.2 and steps:
            lines += [malformed(rng, line("step", *rng.choice(steps))), line("replay", walk.opener, 0, walk.opener, 6)]
    return lines


def long_script(rng):
    """About as many steps as a list may have, and sometimes one that is not allowed."""
    steps = [("switch", 3, 3)] * (4096 + rng.choice([-1, 0, 0, 1, 2]))
    if rng.random() < 0.4:
        steps[rng.choice([-1, 0, rng.randrange(len(steps))])] = ("switch", 3, 4)
    lines = ["declare 3 0 3 0", "declare 3 0 4 0"] + replayed(steps, (3, 0, rng.choice([3, 3, 4, 5]), 6))
    return lines + ["replay 3 0 3 6"]


def image_script(rng, examples):
    lines = build(draft(rng)) if rng.random() < 0.3 else []
    for _ in range(rng.randint(1, 4)):
        pick = rng.random()
        if pick < 0.35:
            data = books.image(draft(rng).bodies())
        elif pick < 0.6:
            data = books.lists_changed(rng)
        elif pick < 0.7:
            data = books.any_records(rng)
        else:
            data = books.bytes_damaged(rng, examples)
        if len(data) > 4000 or not data:
            data = data[:rng.randint(1, 30)] or b"\0"
        text = data.hex()
        if rng.random() < 0.05:
            text = rng.choice([text.upper(), text[:-1], text + "0", text + "g"])
        word = ["image"] if rng.random() < 0.6 else ["body", rng.choice([0, 1, 2, 3, 4, 4, 5])]
        lines.append(line(*word, text))
    return lines + ["write"]


def limit_script(rng):
    return limit_lines(rng, Limits(rng, rng.randrange(9)))


def limit_lines(rng, made):
    """A kind or a list at its limit, and calls past it."""
    lines = build(made)
    calls = [call for call in built(made) if call[0] == made.word]
    for _ in range(4):
        call = rng.choice(calls)
        lines.append(line(*call))
        lines.append(line(*changed(rng, call, len(made.entities))))
    return lines + [line(*made.past), "write"]


class Limits(Draft):
    """A book with a kind or a list that is full."""

    def __init__(self, rng, which):
        accounts = [(ACCOUNT, 0, n, 0) for n in range(3, 3 + (16 if which in (3, 7) else 2))]
        kind = {0: CONTAINER, 1: TABLE, 2: PROCEDURE, 3: ACCOUNT, 4: ROLE, 5: ROLE, 7: ROLE}.get(which, TABLE)
        container = 3 + len(accounts)
        made = {CONTAINER: 2, ACCOUNT: len(accounts), ROLE: 2}.get(kind, 0)
        inside = {CONTAINER: (CONTAINER, 0, 3, 1), ACCOUNT: None, ROLE: (ROLE, 0, 3, 0)}
        one = inside.get(kind, (kind, container, 3, 0))
        more = [] if one is None else [one] * (MOST_OF_KIND[kind] - made)
        if which == 8:
            more = [(PROCEDURE, container, 3, 0)] * 6 + [(TABLE, container, 3, 0)] * 2
        self.entities = list(NEW) + accounts + [(CONTAINER, 0, 3, 1)] + more
        pools = [[], [], [], []]
        roles = [r for r in self.of(ROLE) if r != 2]
        places = [(0, p, 0) for p in self.of(PROCEDURE)] + [(1, t, r) for t in self.of(TABLE) for r in (1, 2, 3)]
        if which == 5:
            pools[0] = [(a, b) for i, a in enumerate(roles) for b in roles[i + 1:]]
        elif which == 6:
            entities = range(len(self.entities))
            pools[1] = [(p, e, r, 0) for p in self.of(ACCOUNT, ROLE) for e in entities for r in range(7)]
        elif which == 7:
            pools[2] = [(a, r) for a in self.of(ACCOUNT) for r in self.of(ROLE)]
        elif which == 8:
            pools[3] = [(*x, w, *y) for x in places for y in places for w in self.of(ACCOUNT) + [CALLER]]
        for pool in pools:
            rng.shuffle(pool)
        self.word = WORDS[max(0, which - 4)]
        full = pools[max(0, which - 5)]
        most = {5: 64, 6: 256, 7: 128, 8: 256}.get(which, 0)
        past = (ACCOUNT, 0, len(self.entities), 0) if one is None else one
        self.past = (self.word, *(full[most] if which > 4 else past))
        self.links, self.rights, self.members, self.lines = (pool[:most] for pool in pools)


def large_script(rng):
    made = draft(rng, (books.full_size if rng.random() < 0.08 else books.large,))
    ask = Asker(rng, made)
    return build(made) + ["list"] + [ask.question() for _ in range(3)]


def malformed_script(rng):
    made = draft(rng)
    ask = Asker(rng, made)
    walk = Walk(rng, made, [], made.of(ACCOUNT)[0])
    lines = build(made)
    good = lines + [ask.question() for _ in range(6)]
    good += ["withdraw", "write", "new", "# a  line", "#", "image 00", "body 0 00"]
    good += [line("step", *walk.candidate()) for _ in range(12)] + [line("replay", *ask.fields())]
    wrong = []
    for _ in range(rng.randint(4, 20)):
        text = rng.choice(good)
        wrong.append(malformed(rng, text) if text[0] != "#" else text)
    return lines + wrong + [line("replay", walk.opener, 0, walk.opener, 6), "write"]


def deep(rng, many):
    """A draft, the commands that build it, and questions, among them those of thirty that take the most steps."""
    for _ in range(8):
        made = draft(rng, (books.woven, books.woven, books.small))
        before = build(made)
        for _ in range(rng.choice([0, 0, 2])):
            before += Asker(rng, made).proposal()
        questions = [Asker(rng, made).fields() for _ in range(30)]
        answers = ask(before + [line("witness", *fields) for fields in questions], "steps")[len(before):]
        found = sorted(zip(step_lists(answers), questions), key=lambda pair: -len(pair[0] or []))
        if len(found[0][0] or []) > 2:
            break
    return made, before, [fields for _, fields in found[:many - 2]] + questions[:2]


def large_questions(rng, many):
    """As `deep`, of a larger book and with any questions."""
    made = draft(rng, (books.large,))
    return made, build(made), [Asker(rng, made).fields() for _ in range(many)]


def step_lists(answers):
    """The lists of steps after each answer `yes N`, None for each other answer, of `witness` commands alone."""
    lists, at = [], 0
    while at < len(answers):
        count = int(answers[at].split()[1]) if answers[at].startswith("yes ") else None
        steps = answers[at + 1:at + 1 + (count or 0)]
        lists.append(None if count is None else [numbered(step.split()[1:]) for step in steps])
        at += 1 + len(steps)
    return lists


def numbered(words):
    return tuple(int(word) if word.isdigit() else word for word in words)


KINDS = [
    ("calls", 20, calls_script),
    ("any", 8, any_script),
    ("layers", 15, layer_script),
    ("questions", 15, question_script),
    ("replays", 16, replay_script),
    ("images", 12, image_script),
    ("limits", 4, limit_script),
    ("large", 3, large_script),
    ("malformed", 7, malformed_script),
    ("long", 0.4, long_script),
]


def script(rng, examples):
    """A kind's name and a script of the kind."""
    name, _, make = rng.choices(KINDS, [weight for _, weight, _ in KINDS])[0]
    return name, make(rng, examples) if make is image_script else make(rng)
