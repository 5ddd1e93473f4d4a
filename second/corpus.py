"""A fixed set of scripts of commands: names and lines."""

import random

import books
import near
import scripts
from books import ACCOUNT, ROOT
from scripts import Limits, build, line, replayed

LABORATORY = [
    ("declare", 3, 0, 3, 0),
    ("declare", 3, 0, 4, 0),
    ("declare", 0, 0, 3, 1),
    ("declare", 1, 5, 3, 0),
    ("declare", 2, 5, 3, 0),
    ("declare", 3, 0, 8, 0),
    ("grant", 4, 7, 5, 0),
    ("grant", 4, 6, 4, 0),
    ("grant", 8, 4, 6, 0),
    ("line", 0, 7, 0, 3, 1, 6, 1),
]
STEPS = [
    ("call", 4, 0, 7, 0),
    ("follow", 4, 0, 7, 0, 3, "call", 1, 6, 1),
    ("plant", 4, 1, 6, 1, 255, "grant", 4, 3, 6, 0),
    ("follow", 3, 1, 6, 1, 255, "grant", 4, 3, 6, 0),
]
# The laboratory with a role, a link and a member, and a container of mode 0.
MORE = [("declare", 4, 0, 3, 0), ("declare", 4, 0, 9, 0), ("declare", 0, 0, 10, 0), ("link", 9, 10), ("join", 8, 9)]
BYTES = list(range(13)) + [16, 96, 127, 128, 254, 255]


def laboratory(left_out=(), instead=()):
    instead = dict(instead)
    return [line(*instead.get(call, call)) for call in LABORATORY if call not in left_out]


def facts():
    """The two example catalogues of docs/access-model.md, and what it says of them."""
    two = ["declare 3 0 3 0", "declare 3 0 4 0", "grant 3 4 6 0"]
    ask = ["list", "write", "row 3", "row 4", "unite 3 4", "same 3 4", "compare 3 4", "exposure 3", "exposure 4"]
    yield "two accounts", two + ask + ["can 3 0 4 6", "can 4 0 3 6"]
    yield "two accounts image", [line("image", (ROOT / "examples/two_accounts.image").read_bytes().hex())]
    everyone = ["list", "write", "row 3", "row 4", "row 8", "compare 8 4", "same 8 4", "unite 3 4"]
    everyone += [line("exposure", a) for a in (3, 4, 8)]
    rights = [(3, 6), (6, 1), (7, 5)]
    questions = [line("can", a, sense, e, r) for a in (3, 4, 8) for sense in (0, 1) for e, r in rights]
    rest = everyone + questions + replayed(STEPS, (4, 0, 3, 6)) + replayed(STEPS, (4, 1, 3, 6))
    no_alter, caller = [("grant", 4, 6, 4, 0)], {LABORATORY[9]: ("line", 0, 7, 0, 255, 1, 6, 1)}
    yield "laboratory", laboratory() + rest
    yield "laboratory image", [line("image", (ROOT / "examples/laboratory.image").read_bytes().hex())]
    yield "laboratory without alter", laboratory(no_alter) + rest
    yield "laboratory with the caller", laboratory((), caller) + rest
    yield "laboratory with the option", laboratory(no_alter, {LABORATORY[6]: ("grant", 4, 7, 5, 1)}) + rest
    yield "laboratory with sysadmin", laboratory() + ["join 4 2", "row 4", "list"]
    proposed = ["propose-member 4 2", "row 4", "list", "withdraw", "row 4"]
    yield "laboratory with sysadmin proposed", laboratory() + proposed
    ask = "can 4 0 3 6"
    proposed = [ask, "propose 4 6 4 0"] + rest + ["withdraw", ask]
    yield "laboratory with alter proposed", laboratory(no_alter) + proposed
    for left_out in range(4):
        steps = STEPS[:left_out] + STEPS[left_out + 1:]
        yield f"laboratory without step {left_out}", laboratory() + replayed(steps, (4, 0, 3, 6))
    yield "new", ["list", "write", "row 0", "row 1", "row 3", "exposure 2", "withdraw", "replay 3 0 0 0", "can 1 0 0 0"]


def every_field():
    """Each field of each call in turn, with many numbers in its place."""
    calls = [
        ("declare", 0, 0, 3, 0), ("declare", 1, 5, 3, 0), ("declare", 3, 0, 20, 0), ("declare", 4, 0, 3, 0),
        ("link", 1, 9), ("grant", 8, 3, 6, 0), ("grant", 4, 7, 5, 1), ("join", 4, 10), ("line", 0, 7, 0, 255, 0, 7, 0),
        ("line", 1, 6, 2, 8, 1, 6, 3), ("propose", 8, 6, 1, 1), ("propose-member", 3, 9),
        ("can", 8, 0, 6, 1), ("replay", 8, 0, 8, 6), ("row", 3), ("exposure", 3), ("unite", 3, 4), ("same", 3, 4),
        ("compare", 4, 3),
    ]
    for call in calls:
        for field in range(1, len(call)):
            lines = laboratory() + [line(*more) for more in MORE]
            for number in BYTES:
                lines.append(line(*call[:field], number, *call[field + 1:]))
                if call[0].startswith("propose"):
                    lines.append("withdraw")
            yield f"{call[0]} field {field}", lines + ["write"]


def wrong_twice(rng):
    """Calls with several fields wrong at once."""
    sizes = {"declare": 4, "link": 2, "grant": 4, "join": 2, "line": 7, "propose": 4, "propose-member": 2}
    sizes |= {"can": 4, "replay": 4, "unite": 2, "same": 2, "compare": 2, "row": 1, "exposure": 1}
    for word, size in sizes.items():
        lines = laboratory() + [line(*more) for more in MORE]
        for _ in range(40 if size > 2 else 25):
            lines.append(line(word, *(rng.choice([0, 1, 1, 2, 3, 4, 5, 6, 7, 8, 9, 12, 255]) for _ in range(size))))
        yield f"{word} wrong", lines + (["write"] if size == 4 else [])


def limits():
    for which in range(9):
        rng = random.Random(f"limit {which}")
        yield f"limit {which}", scripts.limit_lines(rng, Limits(rng, which))
    proposals = [line("propose", 8, n % 9, n % 7, n % 2) if n % 3 else "propose-member 4 1" for n in range(18)]
    after = ["propose 8 9 0 0", "propose 0 0 0 0", "withdraw", "propose-member 4 2", "propose-member 4 2", "row 4"]
    yield "limit proposals", laboratory() + proposals + after + ["withdraw"] * 17 + ["list"]
    yield "limit steps", ["declare 3 0 3 0"] + ["step switch 3 3"] * 4097 + ["replay 3 0 3 6", "replay 3 0 3 6"]


def image_faults():
    """An image with every list, each of its first bytes, its length and each of its records changed in turn."""
    calls = LABORATORY + MORE
    bodies = [list(books.NEW)] + [[call[1:] for call in calls if call[0] == word] for word in scripts.WORDS[1:]]
    bodies[0] += [call[1:] for call in calls if call[0] == "declare"]
    data = books.image(bodies)
    yield "image good", [line("image", data.hex())] + [line("body", n, data.hex()) for n in range(6)]
    for at in range(20):
        wrong = [data[:at] + bytes([(data[at] + change) % 256]) + data[at + 1:] for change in (1, 255)]
        yield f"image byte {at}", [line("image", image.hex()) for image in wrong]
    cut = [data[:length] for length in (1, 2, 19, 20, 21, len(data) - 1)] + [data + b"\0", data + data]
    yield "image of two entities", [line("image", books.image([list(books.NEW)[:2], [], [], [], []]).hex())]
    yield "image length", [line("image", image.hex()) for image in cut]
    for part, body in enumerate(bodies):
        for at, record in enumerate(body):
            fields = range(len(record)) if part else [at % 4]
            yield f"image part {part} record {at}", [line("image", wrong_field(bodies, part, at, n)) for n in fields]
        changed = bodies[:part] + [body + [body[-1]]] + bodies[part + 1:]
        yield f"image part {part} repeated", [line("image", books.image(changed).hex())]


def full_images():
    """Images with a list that is full, and with one record more."""
    for which in (5, 6, 7, 8):
        bodies = Limits(random.Random(f"image {which}"), which).bodies()
        yield f"image list {which - 4} full", [line("body", 1, books.image(bodies).hex())]
        data = bytearray(books.image(bodies))
        data[4 * (which - 4) + 3] += 1
        yield f"image list {which - 4} past", [line("image", data[:20].hex())]


def wrong_field(bodies, part, at, field):
    """The image with one field of one record changed."""
    changed = [list(body) for body in bodies]
    record = list(changed[part][at])
    record[field] = record[field] + 1 if field % 2 else 255 - record[field]
    changed[part][at] = record
    return books.image(changed).hex()


def found_steps(rng):
    """Steps to rights, found by the second program, whole, with each left out, and damaged."""
    while True:
        made, before, fields = scripts.deep(rng, 8)
        asked = [line("witness", *question) for question in fields]
        lists = scripts.step_lists(scripts.ask(before + asked, "steps")[len(before):])
        good = [(steps, question) for steps, question in zip(lists, fields) if steps and 3 <= len(steps) <= 9]
        if good:
            break
    lines = before
    for steps, question in good[:2]:
        lines = lines + [line("can", *question)] + replayed(steps, question)
        for at in rng.sample(range(len(steps)), 2):
            lines = lines + replayed(steps[:at] + steps[at + 1:], question)
        other = scripts.damaged(rng, steps, made, lambda: steps[0])
        lines = lines + replayed(other, question)
    return lines


def full_books():
    """Books with all kinds full, one of them with all lists full too."""
    for number, records in [(0, (64, 256, 128, 256)), (3, (20, 10, 4, 150)), (10, (4, 20, 2, 100))]:
        rng = random.Random(f"full {number}")
        made = (books.Woven if number % 2 else books.Draft)(rng, [20, 20, 40, 16, 16], records)
        asked = []
        for _ in range(3):
            one, other = rng.sample(made.of(ACCOUNT), 2)
            asked += [line("row", one), line("compare", one, other), line("unite", other, one)]
            asked += [line("can", one, sense, other, 6) for sense in (0, 1)]
        yield f"full book {number}", build(made) + ["list"] + asked + ["write"]
        if number == 10:
            yield "full book image", [line("image", books.image(made.bodies()).hex())]


RANDOM = [
    ("calls", 40, scripts.calls_script),
    ("any", 60, scripts.any_script),
    ("layers", 46, scripts.layer_script),
    ("questions", 66, scripts.question_script),
    ("replays", 19, scripts.replay_script),
    ("found steps", 16, found_steps),
    ("malformed", 20, scripts.malformed_script),
]


def cases():
    yield from facts()
    yield from every_field()
    yield from wrong_twice(random.Random("wrong"))
    yield from limits()
    yield from image_faults()
    yield from full_images()
    yield from near.scripts()
    for name, count, make in RANDOM:
        for number in range(count):
            yield f"{name} {number}", make(random.Random(f"corpus {name} {number}"))
    examples = [path.read_bytes() for path in sorted((ROOT / "examples").glob("*.image"))]
    for number in range(28):
        yield f"images {number}", scripts.image_script(random.Random(f"corpus images {number}"), examples)
    yield from full_books()


def text():
    """The script of all cases, each under its name and with a new book."""
    return "".join(f"# case {name}\nnew\n" + "".join(made + "\n" for made in lines) for name, lines in cases())
