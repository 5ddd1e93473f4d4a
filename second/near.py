"""Lists of steps of which each is allowed for one reason only, or fails one condition only."""

# Accounts 3, 4 and 5; roles 6 and 7, with 7 below 6; container 8 of account 3 with table 9 and procedures 10 and 11;
# container 12 of account 5 with procedure 13 and table 14; container 15 of mode 0.
BOOK = """
declare 3 0 3 0, declare 3 0 4 0, declare 3 0 5 0, declare 4 0 3 0, declare 4 0 3 0, declare 0 0 3 1, declare 1 8 3 0,
declare 2 8 3 0, declare 2 8 3 0, declare 0 0 5 1, declare 2 12 5 0, declare 1 12 5 0, declare 0 0 3 0, link 7 6,
line 0 10 0 255 0 11 0, line 0 10 0 255 0 13 0, line 0 10 0 5 0 13 0, line 0 10 0 5 1 9 1, line 0 13 0 255 1 14 2,
line 0 11 0 3 1 9 2, line 0 13 0 5 1 9 3
"""

# Of account 4: what is proposed, and after a colon the steps.
ALLOWED = """
4 5 6 0: switch 4 5
4 0 6 0: switch 4 5
1 5 6 0: switch 4 5
7 5 6 0, 4 6: switch 4 5
6 5 6 0, 4 6: switch 4 5
4 5 6 0, 5 3 6 0: switch 4 5, switch 5 3, switch 3 3
: switch 4 4
4 9 1 1: grant 4 5 9 1 0, grant 4 5 9 1 1, grant 4 6 9 1 1, grant 4 5 9 1 0
6 9 1 1, 4 6: grant 4 5 9 1 0
7 9 1 1, 4 6: grant 4 3 9 1 0
1 9 1 1: grant 4 3 9 1 0
4 8 1 1: grant 4 5 8 1 0
4 9 1 1, 4 9 1 0: grant 4 5 9 1 0
4 2: grant 4 5 0 6 1, join 4 5 2, switch 4 3, plant 4 2 12 0 5 call 2 8 0, call 4 2 12 0
4 5 6 0: switch 4 5, grant 5 4 13 5 0, call 4 0 13 0
4 6 4 0: join 4 5 6, join 4 4 6
4 0 4 0: join 4 4 2, switch 4 3
4 6 4 0, 7 5 6 0: join 4 4 6, switch 4 5
4 9 4 0: plant 4 1 9 1 255 call 0 10 0, plant 4 1 9 2 4 call 2 8 0, plant 4 1 9 3 255 grant 3 0 6 1
4 9 4 0: plant 4 1 9 1 255 join 3 2, plant 4 1 9 1 255 call 1 14 3
4 8 4 0: plant 4 2 8 0 255 call 2 12 0, plant 4 0 10 0 255 call 0 11 0, plant 4 1 9 1 255 call 0 10 0
4 10 4 0, 4 5 6 0: plant 4 0 10 0 5 grant 4 14 3 1
4 10 5 0: call 4 0 10 0
4 8 5 0: call 4 0 10 0, call 4 0 11 0, call 4 2 8 0
4 9 1 0: call 4 1 9 1
4 9 2 0: call 4 1 9 2
4 9 3 0: call 4 1 9 3
4 10 5 0: call 4 0 10 0, follow 4 0 10 0 255 call 0 11 0, follow 4 0 11 0 3 call 1 9 2
4 10 5 0, 4 13 5 0: call 4 0 10 0, follow 4 0 10 0 255 call 0 13 0, follow 4 0 13 0 255 call 1 14 2
4 10 5 0: call 4 0 10 0, follow 4 0 10 0 5 call 0 13 0, follow 5 0 13 0 255 call 1 14 2
4 13 5 0, 5 9 3 0: call 4 0 13 0, follow 4 0 13 0 5 call 1 9 3
4 10 5 0, 4 10 4 0: call 4 0 10 0, plant 4 0 10 0 255 call 1 9 3, follow 4 0 10 0 255 call 1 9 3
4 10 5 0, 4 10 4 0: plant 4 0 10 0 255 call 2 8 0, call 4 0 10 0, follow 4 0 10 0 255 call 2 8 0
4 10 5 0, 4 10 4 0: call 4 0 10 0, plant 4 0 10 0 255 grant 1 4 6 1, follow 4 0 10 0 255 grant 1 4 6 1
4 10 5 0, 4 10 4 0, 4 5 6 0: call 4 0 10 0, plant 4 0 10 0 5 grant 4 14 3 1, follow 4 0 10 0 5 grant 4 14 3 1,
    grant 4 3 14 3 0, call 4 1 14 3
4 10 5 0, 4 11 4 0: call 4 0 10 0, follow 4 0 10 0 255 call 0 11 0, plant 4 0 11 0 255 call 0 10 0,
    follow 4 0 11 0 255 call 0 10 0
4 10 5 0, 4 9 4 0: call 4 0 10 0, follow 4 0 10 0 255 call 0 11 0, follow 4 0 11 0 3 call 1 9 2,
    plant 4 1 9 2 255 join 4 6, follow 3 1 9 2 255 join 4 6
4 10 5 0, 4 10 4 0, 4 6 4 0: call 4 0 10 0, plant 4 0 10 0 255 join 5 6, follow 4 0 10 0 255 join 5 6
"""

# The last step is not allowed.
NOT_ALLOWED = """
: switch 4 5
: switch 5 5
4 5 4 0: switch 4 5
4 3 6 0: switch 4 5
7 5 6 0, 4 7: switch 5 4
6 5 6 0, 4 7: switch 4 5
4 6 6 0: switch 4 6
4 5 6 0, 5 3 6 0: switch 4 5, switch 4 3
4 5 6 0, 5 3 6 0: switch 5 3
4 9 1 0: grant 4 5 9 1 0
4 9 1 0, 4 9 2 1: grant 4 5 9 1 0
4 8 1 1: grant 4 5 9 1 0
4 9 1 1: grant 4 5 8 1 0
4 9 1 1: grant 4 9 9 1 0
4 9 1 1: grant 4 5 9 2 0
4 9 1 1: grant 4 5 16 1 0
4 9 1 1: grant 4 16 9 1 0
4 9 1 1: grant 3 4 9 1 0
6 9 1 1, 4 7: grant 4 5 9 1 0
: grant 5 4 13 5 0
4 6 4 0: join 4 4 7
4 6 4 0: join 4 6 6
4 9 4 0: join 4 4 9
4 6 5 0: join 4 4 6
4 6 4 0: join 3 4 6
4 7 4 0: join 4 4 6
4 9 5 0: plant 4 1 9 1 255 call 0 10 0
4 9 4 0: plant 3 1 9 1 255 call 0 10 0
4 9 4 0: plant 4 1 14 1 255 call 0 10 0
4 9 4 0: plant 4 1 9 1 5 call 0 10 0
4 9 4 0, 4 5 4 0: plant 4 1 9 1 5 call 0 10 0
4 9 4 0, 4 6 6 0: plant 4 1 9 1 6 call 0 10 0
4 9 4 0, 4 0 6 0: plant 4 1 9 1 16 call 0 10 0
4 9 4 0, 4 5 6 0, 5 3 6 0: switch 4 5, plant 4 1 9 1 3 call 0 10 0
4 9 4 0, 4 5 6 0, 5 3 6 0: switch 4 5, plant 5 1 9 1 3 call 0 10 0
4 9 4 0: plant 4 0 9 0 255 call 0 10 0
4 10 4 0: plant 4 1 10 1 255 call 0 10 0
4 15 4 0: plant 4 2 15 0 255 call 0 10 0
4 9 4 0: plant 4 2 9 0 255 call 0 10 0
4 9 4 0: plant 4 1 9 1 255 call 2 15 0
4 9 4 0: plant 4 1 9 1 255 call 0 9 0
4 9 4 0: plant 4 1 9 1 255 call 1 10 1
4 9 4 0: plant 4 1 9 1 255 grant 9 0 6 1
4 9 4 0: plant 4 1 9 1 255 grant 3 16 6 1
4 9 4 0: plant 4 1 9 1 255 join 6 6
4 9 4 0: plant 4 1 9 1 255 join 3 9
4 10 4 0: call 4 0 10 0
4 11 5 0: call 4 0 10 0
4 10 5 0: call 3 0 10 0
4 9 2 0: call 4 1 9 1
4 9 1 0: call 4 1 9 3
4 9 5 0: call 4 0 9 0
4 9 5 0: call 4 1 9 1
4 10 1 0: call 4 1 10 1
4 15 5 0: call 4 2 15 0
4 10 5 0: call 4 2 8 0
4 0 5 0: call 4 0 16 0
4 10 5 0: follow 4 0 10 0 255 call 0 11 0
4 10 5 0: call 4 0 10 0, follow 3 0 10 0 255 call 0 11 0
4 10 5 0: call 4 0 10 0, follow 4 0 10 0 255 call 0 13 0
4 13 5 0: call 4 0 13 0, follow 4 0 13 0 5 call 1 9 3
4 13 5 0, 4 9 3 0: call 4 0 13 0, follow 4 0 13 0 5 call 1 9 3
4 10 5 0: call 4 0 10 0, follow 4 0 10 0 255 call 1 9 1
4 10 5 0: call 4 0 10 0, follow 4 0 10 0 5 call 0 11 0
4 10 5 0: call 4 0 10 0, follow 4 0 10 0 5 call 0 13 0, follow 4 0 13 0 255 call 1 14 2
4 10 5 0, 5 9 1 0: call 4 0 10 0, follow 4 0 10 0 5 call 1 9 1, call 4 1 9 1
4 10 5 0: call 4 0 10 0, follow 4 0 10 0 255 call 0 11 0, call 4 0 11 0
4 10 5 0, 4 11 4 0: call 4 0 10 0, plant 4 0 11 0 255 call 0 10 0, follow 4 0 10 0 255 call 0 10 0
4 10 5 0, 4 10 4 0: call 4 0 10 0, plant 4 0 10 0 255 grant 1 4 6 0, follow 4 0 10 0 255 grant 1 4 6 1
4 10 5 0, 4 10 4 0: call 4 0 10 0, plant 4 0 10 0 4 call 1 9 3, follow 4 0 10 0 255 call 1 9 3
4 10 5 0, 4 10 4 0: call 4 0 10 0, plant 4 0 10 0 255 call 1 14 3, follow 4 0 10 0 255 call 1 14 3
4 10 5 0, 4 10 4 0: call 4 0 10 0, plant 4 0 10 0 255 grant 4 14 3 1, follow 4 0 10 0 255 grant 4 14 3 1
4 10 5 0, 4 10 4 0, 4 14 3 0: call 4 0 10 0, plant 4 0 10 0 255 grant 4 14 3 1, follow 4 0 10 0 255 grant 4 14 3 1
4 10 5 0, 4 10 4 0, 4 5 6 0: call 4 0 10 0, plant 4 0 10 0 5 grant 4 9 3 1, follow 4 0 10 0 5 grant 4 9 3 1
4 10 5 0, 4 10 4 0, 4 6 5 0: call 4 0 10 0, plant 4 0 10 0 255 join 5 6, follow 4 0 10 0 255 join 5 6
"""


def commands(text):
    return [part.strip() for part in text.replace("\n", " ").split(",") if part.strip()]


def lists(text):
    """Of each row: the proposals, and the steps, as commands. A row goes on in an indented line."""
    for row in text.strip().replace("\n    ", " ").split("\n"):
        proposed, steps = row.split(":")
        words = {4: "propose", 2: "propose-member"}
        proposals = [f"{words[len(record.split())]} {record}" for record in commands(proposed)]
        yield proposals, ["step " + step for step in commands(steps)]


def scripts():
    """Each list replayed after its proposals, with what they let account 4 come to; ten lists a script."""
    for name, text in (("allowed", ALLOWED), ("not allowed", NOT_ALLOWED)):
        rows = list(lists(text))
        for first in range(0, len(rows), 10):
            lines = commands(BOOK)
            for proposed, steps in rows[first:first + 10]:
                lines += proposed + ["exposure 4"] + steps + ["replay 4 0 4 6"] + ["withdraw"] * len(proposed)
            yield f"steps {name} {first}", lines
