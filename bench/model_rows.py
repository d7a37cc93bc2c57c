"""Worked examples for the model: `model.py --rows` runs them.

In a script each line has the command, and behind `|` what is written after it; a line that begins with `|` is more of
that. `FIVE` and `LONG` are the records with which some of the scripts begin.
"""
import itertools

import model
from model import Kernel, Need, Plane, Rect, Table

FIVE = [(1, 0, 0, 2, 2, "a"), (2, 8, 8, 10, 10, "b"), (3, 100, 0, 102, 2, "c"), (4, 108, 8, 110, 10, "d"),
        (5, 4, 4, 6, 6, "e")]
LONG = [(1, 0, 0, 2, 9, "a"), (2, 98, 0, 100, 9, "b"), (3, 50, 10, 51, 20, "c"), (4, 50, 990, 51, 1000, "d"),
        (5, 40, 0, 60, 9, "e")]

# Each has a title, the form, the records at the start, M and m.
SCRIPTS = [
    ("a search of all space", "play", [], 16, 6, """
A begin | A began 0
A find -1073741824 -1073741824 1073741823 1073741823 | A found 0
A commit | A committed 1
audit | {"base":[],"commits":[{"ops":[[["find",-1073741824,-1073741824,1073741823,1073741823],["found",[]]]],"place":1,"seen":0,"session":0,"txn":1}],"ended":[]}
"""),
    ("a point in the corner of space", "play", [], 16, 6, """
A begin | A began 0
A put 1 -1073741824 -1073741824 -1073741824 -1073741824 corner | A done
A find -1073741824 -1073741824 -1073741824 -1073741824 | A found 1
| A rec 1 -1073741824 -1073741824 -1073741824 -1073741824 corner
A commit | A committed 1
"""),
    ("a corner out of space", "play", [], 16, 6, """
A begin | A began 0
A put 1 0 0 1073741824 0 x | A bad rect
A put 1 0 0 0 0 x | A done
| A rolledback
"""),
    ("an empty corner outside all leaves", "play", FIVE, 4, 2, """
A begin | A began 0
A find 50 50 60 60 | A found 0
B begin | B began 0
B put 6 55 55 56 56 f | B waits granule 3 IX A
A commit | A committed 1
| B done
B commit | B committed 2
"""),
    ("a leaf that grows into its sibling", "play", LONG, 4, 2, """
A begin | A began 0
A find 50 12 51 13 | A found 1
| A rec 3 50 10 51 20 c
B begin | B began 0
B put 6 90 15 95 16 f | B waits granule 2 IX A
A commit | A committed 1
| B done
B commit | B committed 2
"""),
    ("a leaf that gives entries away", "play", [], 4, 2, """
Z begin | Z began 0
Z put 1 0 0 2 2 a | Z done
Z put 2 8 8 10 10 b | Z done
Z put 3 100 0 102 2 c | Z done
Z commit | Z committed 1
A begin | A began 1
A put 4 108 8 110 10 d | A done
B begin | B began 1
B put 5 4 4 6 6 e | B waits granule 1 SIX A
A commit | A committed 2
| B done
B commit | B committed 3
"""),
    ("own growth into own searched space", "play", FIVE, 4, 2, """
A begin | A began 0
A find 50 0 60 5 | A found 0
C begin | C began 0
C set 1 z | C done
A put 7 40 0 52 5 g | A waits granule 1 SIX C
C commit | C committed 1
| A done
D begin | D began 1
D set 1 y | D waits granule 1 IX A
A commit | A committed 2
| D done
D commit | D committed 3
"""),
    ("each puts into what the other searched", "play", FIVE, 4, 2, """
A begin | A began 0
A find 1 1 3 3 | A found 1
| A rec 1 0 0 2 2 a
B begin | B began 0
B find 101 1 103 3 | B found 1
| B rec 3 100 0 102 2 c
A put 6 104 4 105 5 f | A waits granule 2 IX B
B put 7 3 3 4 4 g | B deadlock 2
| B edge B A granule 1 IX held S
| B edge A B granule 2 IX held S
| A done
A commit | A committed 1
B commit | B refused notxn
"""),
    ("a cycle through an earlier waiter", "play", FIVE, 4, 2, """
A begin | A began 0
A find 1 1 3 3 | A found 1
| A rec 1 0 0 2 2 a
C begin | C began 0
C set 3 z | C done
B begin | B began 0
B put 6 3 3 4 4 f | B waits granule 1 IX A
C find 1 1 3 3 | C waits granule 1 S B
A get 3 | A deadlock 3
| A edge A C object 3 S held X
| A edge C B granule 1 S waiting IX
| A edge B A granule 1 IX held S
| B done
B commit | B committed 1
| C found 2
| C rec 1 0 0 2 2 a
| C rec 6 3 3 4 4 f
C commit | C committed 2
"""),
    ("a drop that is taken back, and a get", "play", [], 16, 6, """
Z begin | Z began 0
Z put 7 0 0 1 1 old | Z done
Z commit | Z committed 1
A begin | A began 1
A drop 7 | A done
B begin | B began 1
B get 7 | B waits object 7 S A
A rollback | A rolledback
| B rec 7 0 0 1 1 old
B commit | B committed 2
"""),
    ("a drop that is taken back, and a find", "play", [], 16, 6, """
Z begin | Z began 0
Z put 7 0 0 1 1 old | Z done
Z commit | Z committed 1
A begin | A began 1
A drop 7 | A done
B begin | B began 1
B find 0 0 1 1 | B waits granule 1 S A
A rollback | A rolledback
| B found 1
| B rec 7 0 0 1 1 old
B commit | B committed 2
"""),
    ("two entries of one id, and a leaf that is dropped", "drill", FIVE, 4, 2, """
A begin | A began 0
A start drop 3 | A started
A name | A granted
A plan | A planned 1
A ask | A granted
A apply | A done
A commit | A queued
flush | - wrote
flush | - wrote
flush | - wrote
flush | - durable 1 1
| A committed 1
B begin | B began 1
B start put 3 1 1 2 2 n | B started
B name | B granted
B plan | B planned 1
B ask | B granted
B apply | B done
B commit | B queued
flush | - wrote
flush | - wrote
flush | - wrote
flush | - durable 2 1
| B committed 2
clean | - removed 3
clean | - nothing
"""),
    ("a plan, and a commit before its lock", "drill", FIVE, 4, 2, """
B begin | B began 0
B start set 3 z | B started
B name | B granted
B plan | B planned 1
B ask | B granted
B apply | B done
A begin | A began 0
A start find 1 1 3 3 | A started
A name | A granted
A plan | A planned 1
B commit | B queued
flush | - wrote
flush | - wrote
flush | - wrote
flush | - durable 1 1
| B committed 1
A ask | A granted
A apply | A found 1
| A rec 1 0 0 2 2 a
A commit | A committed 2
"""),
    ("no needless wait", "play", FIVE, 4, 2, """
A begin | A began 0
A find 1 1 3 3 | A found 1
| A rec 1 0 0 2 2 a
B begin | B began 0
B put 6 112 2 113 3 f | B done
B commit | B committed 1
A commit | A committed 2
"""),
    ("own changes read back", "play", [], 16, 6, """
A begin | A began 0
A put 1 0 0 1 1 x | A done
A put 1 5 5 6 6 y | A exists
A set 2 z | A absent
A set 1 y | A done
A get 1 | A rec 1 0 0 1 1 y
A drop 1 | A done
A drop 1 | A absent
A get 1 | A absent
A put 1 5 5 5 5 w | A done
A fill 0 0 9 9 v | A count 1
A clear 6 6 9 9 | A count 0
A commit | A committed 1
A begin | A began 1
A find 0 0 9 9 | A found 1
| A rec 1 5 5 5 5 v
A rollback | A rolledback
A commit | A refused notxn
"""),
    ("the latch of a writer", "drill", FIVE, 4, 2, """
A begin | A began 0
A start set 1 z | A started
A name | A granted
A plan | A planned 1
B begin | B began 0
B start find 1 1 3 3 | B started
B name | B granted
B plan | B latch A
A rollback | A rolledback
B plan | B planned 1
B apply | B refused phase
B ask | B granted
B apply | B found 1
| B rec 1 0 0 2 2 a
"""),
    ("a removal in what another searched", "drill", FIVE, 4, 2, """
A begin | A began 0
A start drop 3 | A started
A name | A granted
A plan | A planned 1
A ask | A granted
A apply | A done
A commit | A queued
flush | - wrote
flush | - wrote
flush | - wrote
flush | - durable 1 1
| A committed 1
B begin | B began 1
B start find 101 1 103 3 | B started
B name | B granted
B plan | B planned 1
B ask | B granted
B apply | B found 0
clean | - later granule 2 B S
B commit | B committed 2
clean | - removed 3
"""),
    ("bad lines", "play", [], 16, 6, """
a begin | ? bad session
A | A bad command
A beginn | A bad command
A begin now | A bad words
A put 01 0 0 0 0 x | A bad number
A put 1 5 0 4 0 x | A bad rect
A put 1 0 0 0 0 12345678901234567890123456789012345678901234567890123456789012345 | A bad value
A get 1 | A refused notxn
"""),
    ("a generated script", "play", [], 16, 6, """
A begin | A began 0
B begin | B began 0
C begin | C began 0
A get 249 | A absent
B put 878 7923 7709 7963 7774 v1 | B done
C find 7987 2503 8014 2532 | C waits granule 1 S B
A put 612 4303 3169 4312 3226 v1 | A waits granule 1 IX C
B put 933 3099 278 3115 313 v1 | B done
C put 826 3512 9267 3522 9300 v1 | C refused busy
A commit | A refused busy
B commit | B committed 1
| C found 0
C commit | C committed 2
| A done
| A rolledback
"""),
]


def check_script(title, form, base, most, least, text):
    told = [[part.strip() for part in line.split(" | " if not line.startswith("|") else "|", 1)]
            for line in text.strip().split("\n")]
    commands = [command for command, _ in told if command not in ("", "audit")]
    wanted = "".join(answer + "\n" for _, answer in told)
    done = model.run(form, "".join(command + "\n" for command in commands).encode(), most, least, base)
    written = done.text() + (model.audit_text(done.kernel) if told[-1][0] == "audit" else "")
    return compare(title, written, wanted), done.kernel


def compare(title, given, wanted):
    if given == wanted:
        return True
    print("differs: %s\n--- given\n%s\n--- wanted\n%s" % (title, given, wanted))
    return False


def shape_of(tree):
    """The root, and the members of each node."""
    return tree.root, {number: node.members for number, node in sorted(tree.nodes.items())}


# Checks of single parts. Each gives what was found and what is wanted.


def check_splits():
    equal = [Rect(0, 0, 1, 1)] * 5
    yield model.quadratic(equal, 2), ([0, 2, 4], [1, 3])
    yield model.quadratic([Rect(*record[1:5]) for record in FIVE], 2), ([0, 1, 4], [2, 3])


def check_trees():
    five, long = Kernel(4, 2, FIVE).tree, Kernel(4, 2, LONG).tree
    yield shape_of(five), (3, {1: [1, 2, 5], 2: [3, 4], 3: [1, 2]})
    yield [five.space(1), five.space(2)], [(0, 0, 10, 10), (100, 0, 110, 10)]
    yield shape_of(long), (3, {1: [1, 2, 5], 2: [3, 4], 3: [1, 2]})
    yield [long.space(1), long.space(2)], [(0, 0, 100, 9), (50, 10, 51, 1000)]


def check_trees_after_cleaning(kernels):
    kernel = kernels["two entries of one id, and a leaf that is dropped"]
    yield shape_of(kernel.tree), (3, {1: [1, 5, 6], 3: [1, 4], 4: [2, 4]})
    yield [kernel.tree.space(1), kernel.tree.space(4)], [(0, 0, 6, 6), (8, 8, 110, 10)]
    yield shape_of(kernels["a removal in what another searched"].tree), (1, {1: [1, 2, 5, 4]})


def changed_nodes(before, after):
    return [number for number in sorted({*before.nodes, *after.nodes})
            if number not in before.nodes or number not in after.nodes
            or before.nodes[number].members != after.nodes[number].members
            or before.member_rects(number) != after.member_rects(number)]


def check_plans():
    five, four = Kernel(4, 2, FIVE).tree, Kernel(4, 2, FIVE[:4]).tree
    yield changed_nodes(five, model.grown(five, 6, Rect(5, 5, 6, 6))), [1]
    yield changed_nodes(five, model.grown(five, 6, Rect(55, 55, 56, 56))), [2, 3]
    yield changed_nodes(four, model.grown(four, 5, Rect(4, 4, 6, 6))), [1, 2, 3]


def check_points():
    plane = Plane([Rect(0, 0, 9, 4), Rect(0, 5, 9, 9), Rect(0, 0, 9, 9), Rect(3, 3, 5, 5)])
    halves = plane.points(Rect(0, 0, 9, 4)) | plane.points(Rect(0, 5, 9, 9))
    yield plane.points(Rect(0, 0, 9, 9)) & ~halves, 0
    yield plane.points(Rect(0, 0, 9, 9)) & ~plane.points(Rect(3, 3, 5, 5)) == 0, False
    five, long = Kernel(4, 2, FIVE).tree, Kernel(4, 2, LONG).tree
    yield list(model.search_needs(five, Rect(50, 50, 60, 60))), [("granule", 3)]
    yield list(model.search_needs(five, Rect(5, 5, 5, 5))), [("granule", 1)]
    yield list(model.search_needs(long, Rect(50, 12, 51, 13))), [("granule", 2)]


def check_table():
    name, table = ("granule", 1), Table()
    table.give(0, Need(name, "S", "commit"))
    yield table.blockers(1, name, "IX"), [0]
    table.wait(1, Need(name, "IX", "commit"))
    yield table.blockers(2, name, "S"), [1]
    table.wait(2, Need(name, "S", "commit"))
    table.release_all(0)
    yield [table.held(session, name) for session in (1, 2)], ["IX", None]
    table.release_all(1)
    yield table.held(2, name), "S"


def check_modes():
    modes = ["IS", "IX", "S", "SIX", "X"]
    yield ["".join("yn"[not model.are_compatible(one, other)] for other in modes) for one in modes], [
        "yyyyn", "yynnn", "ynynn", "ynnnn", "nnnnn"]
    yield [[model.join(one, other) for other in modes] for one in modes], [
        ["IS", "IX", "S", "SIX", "X"], ["IX", "IX", "SIX", "SIX", "X"], ["S", "SIX", "S", "SIX", "X"],
        ["SIX", "SIX", "SIX", "SIX", "X"], ["X", "X", "X", "X", "X"]]


def check_limits():
    names = ["A", *("A%d" % digit for digit in range(10)), *("A%02d" % number for number in range(53))]
    begins = "".join(name + " begin\n" for name in [*names, "A53"]).encode()
    yield model.run("play", begins).out[64], "A53 full transactions\n"
    gets = b"A begin\n" + b"A get 1\n" * 4097 + b"A commit\n"
    yield model.run("play", gets).out[4096:], ["A absent\n", "A full operations\n", "A committed 1\n"]


def check_lines():
    yield model.run("play", b"A " + b"x" * 511 + b"\nA get 1").out, ["? bad long\n", "A refused notxn\n"]
    script = b"A " + b"x" * 510 + b"\r\n\n#\n\r\nA \nA  begin\nA begin \nflush\nA get 1\r\nA get 1\r"
    yield model.run("play", script).out, [
        "A bad command\n", "A bad command\n", "A bad command\n", "A bad words\n", "? bad session\n",
        "A refused notxn\n", "A bad number\n"]
    yield model.run("play", b"\r").out, ["? bad session\n"]
    yield model.run("drill", b"flush now\nA start\nA start begin\nA put 1 0 0 0 0 x\nA begin\nclean\n").out, [
        "? bad session\n", "A bad command\n", "A bad command\n", "A bad command\n", "A began 0\n", "- nothing\n"]


def check_words():
    yield model.read_words(["play", "--max=8"]), ("play", 8, 3, False)
    yield model.read_words(["drill", "--audit", "--min", "2", "--max", "4"]), ("drill", 4, 2, True)
    for words in ("", "play --max 3", "play --max 8 --min 5", "play --max 4 --max 4", "play --audit=", "play --max",
                  "play --max 04"):
        yield model.read_words(words.split()), None


def check_parcels():
    """A day at the land registry: 200 parcels in millimetres."""
    def corners(number):
        row, column = divmod(number, 20)
        return "%d %d %d %d" % (20000 * column, 30000 * row, 20000 * column + 18000, 30000 * row + 28000)

    def puts(session, numbers):
        return ["%s put %d %s free" % (session, number + 1, corners(number)) for number in numbers]

    script = ["A begin", *puts("A", range(100)), "A commit", "B begin", *puts("B", range(100, 200)), "B commit",
              "C begin", "C fill 0 0 98000 58000 sold", "C clear 0 150000 398000 178000",
              "C find -1073741824 -1073741824 1073741823 1073741823", "C commit"]
    out = model.run("play", "\n".join(script).encode()).out
    yield [out[101], out[203], *out[205:209]], ["A committed 1\n", "B committed 2\n", "C count 10\n", "C count 20\n",
                                                "C found 180\n", "C rec 1 0 0 18000 28000 sold\n"]
    yield out[-2:], ["C rec 200 380000 270000 398000 298000 free\n", "C committed 3\n"]


# The generator's scripts, and their summary


def generated(seed, rounds):
    def numbers(last):
        while True:
            last = 16807 * last % 2147483647
            yield last

    source = numbers(seed)
    for turn in range(1, rounds + 1):
        yield from ("%s begin" % session for session in "ABC")
        for session in "ABCABC":
            kind, ident, x, y, w, h = itertools.islice(source, 6)
            x, y = x % 10000, y % 10000
            yield session + " " + generated_operation(kind % 8, ident % 1000, x, y, x + w % 100, y + h % 100, turn)
        yield from ("%s commit" % session for session in "ABC")


def generated_operation(kind, ident, x1, y1, x2, y2, turn):
    if kind < 4:
        return "put %d %d %d %d %d v%d" % (ident, x1, y1, x2, y2, turn)
    return {4: "find %d %d %d %d" % (x1, y1, x2, y2), 5: "drop %d" % ident, 6: "set %d v%d" % (ident, turn),
            7: "get %d" % ident}[kind]


def summary(seed, rounds):
    script = list(generated(seed, rounds))
    done = model.run("play", "\n".join(script).encode())
    words = [answer[0] for answer in done.answers]
    kernel = done.kernel
    records = [entry for entry in kernel.entries.values() if entry.ended != model.DONE]
    return [len(script), len(kernel.commits), words.count("waits"), len(kernel.endings), words.count("refused"),
            len(records)]


def check_generated():
    yield summary(1, 0), [0, 0, 0, 0, 0, 0]
    yield summary(1, 1), [12, 2, 2, 0, 2, 2]
    yield summary(7, 1000), [12000, 2982, 80, 0, 65, 766]


CHECKS = [check_splits, check_trees, check_plans, check_points, check_table, check_modes, check_limits, check_lines,
          check_words, check_parcels, check_generated]


def main():
    results, kernels = [], {}
    for script in SCRIPTS:
        is_right, kernels[script[0]] = check_script(*script)
        results.append(is_right)
    for check in [*CHECKS, lambda: check_trees_after_cleaning(kernels)]:
        results += [compare(check.__name__, given, wanted) for given, wanted in check()]
    print("%d of %d are as wanted" % (results.count(True), len(results)))
    return 0 if all(results) else 1
