#!/usr/bin/env python3
"""A plain model of `spatial play` and `spatial drill` without a journal.

It says what the program must print for a script, and was written from the description of the store alone. It aims at
being read: it computes each thing from its definition, at whatever cost. Sets of points are sets of cells of a plane
that is cut at all edges, a plan is a whole second tree, and what a granule loses or a leaf gains is a difference of
sets.

The tree is Guttman's ("R-Trees", SIGMOD 1984), with the quadratic split. The locks are after Chakrabarti and Mehrotra
("Dynamic Granular Locking Approach to Phantom Protection in R-Trees", ICDE 1998).

Left out are the limits that a script of some thousand lines cannot reach.

usage: bench/model.py play|drill [--max M] [--min m] [--audit] <SCRIPT
       bench/model.py --rows    runs the worked examples of model_rows.py, in two minutes
"""
import itertools
import json
import re
import sys
from collections import namedtuple

LOW, HIGH = -1073741824, 1073741823

# Rectangles


class Rect(namedtuple("Rect", "x1 y1 x2 y2")):
    """A closed rectangle of lattice points."""

    def meets(self, other):
        return (self.x1 <= other.x2 and other.x1 <= self.x2
                and self.y1 <= other.y2 and other.y1 <= self.y2)

    def bound(self, other):
        return Rect(min(self.x1, other.x1), min(self.y1, other.y1), max(self.x2, other.x2), max(self.y2, other.y2))

    def area(self):
        return (self.x2 - self.x1) * (self.y2 - self.y1)

    def growth(self, other):
        return self.bound(other).area() - self.area()


WHOLE = Rect(LOW, LOW, HIGH, HIGH)


def is_in_space(x1, y1, x2, y2):
    return LOW <= x1 <= x2 <= HIGH and LOW <= y1 <= y2 <= HIGH


def bound_all(rects):
    """The smallest rectangle that holds all of these."""
    whole, *others = rects
    for other in others:
        whole = whole.bound(other)
    return whole


class Plane:
    """All of space, cut at the edges of some rectangles into cells.

    A set of points that is made of these rectangles is a number with one bit for each cell, row after row."""

    def __init__(self, rects):
        rects = [WHOLE, *rects]
        self.columns = self.places(edge for rect in rects for edge in (rect.x1, rect.x2 + 1))
        self.rows = self.places(edge for rect in rects for edge in (rect.y1, rect.y2 + 1))
        width = len(self.columns)
        # The first cell of each of the first rows, for each number of rows.
        self.firsts = list(itertools.accumulate((1 << row * width for row in range(len(self.rows))), initial=0))

    @staticmethod
    def places(edges):
        return {edge: place for place, edge in enumerate(sorted(set(edges)))}

    def points(self, rect):
        left, right = self.columns[rect.x1], self.columns[rect.x2 + 1]
        top, bottom = self.rows[rect.y1], self.rows[rect.y2 + 1]
        one_row = (1 << right) - (1 << left)
        return one_row * (self.firsts[bottom] - self.firsts[top])


# The tree


def quadratic(rects, least):
    """Guttman's quadratic split: the positions of the two groups, each ascending."""
    def waste(pair):
        one, other = rects[pair[0]], rects[pair[1]]
        return one.bound(other).area() - one.area() - other.area()

    seeds = max(itertools.combinations(range(len(rects)), 2), key=waste)
    groups = [[seeds[0]], [seeds[1]]]
    rest = [place for place in range(len(rects)) if place not in seeds]
    while rest:
        short = [group for group in groups if len(group) + len(rest) == least]
        if short:
            short[0].extend(rest)
            break
        pick_next(rects, groups, rest)
    return sorted(groups[0]), sorted(groups[1])


def pick_next(rects, groups, rest):
    """Moves that one of the rest for which the choice of a group matters most to its group."""
    bounds = [bound_all(rects[place] for place in group) for group in groups]

    def difference(place):
        return abs(bounds[0].growth(rects[place]) - bounds[1].growth(rects[place]))

    chosen = max(rest, key=difference)
    cost = [(bound.growth(rects[chosen]), bound.area(), len(group)) for bound, group in zip(bounds, groups)]
    rest.remove(chosen)
    groups[0 if cost[0] <= cost[1] else 1].append(chosen)


class Node:
    """A leaf has height 0 and numbers of entries, any other node has numbers of nodes one lower."""

    def __init__(self, height, members):
        self.height = height
        self.members = members


class Tree:
    def __init__(self, most, least):
        self.most = most
        self.least = least
        self.nodes = {1: Node(0, [])}
        self.root = 1
        self.next_node = 2
        self.rects = {}  # by the number of the entry

    def copy(self):
        other = Tree(self.most, self.least)
        other.nodes = {number: Node(node.height, list(node.members)) for number, node in self.nodes.items()}
        other.root = self.root
        other.next_node = self.next_node
        other.rects = dict(self.rects)
        return other

    def bound_of(self, number):
        return bound_all(self.member_rects(number))

    def member_rects(self, number):
        node = self.nodes[number]
        return [self.rects[member] if node.height == 0 else self.bound_of(member) for member in node.members]

    def space(self, number):
        return WHOLE if number == self.root else self.bound_of(number)

    def spaces(self):
        return [self.space(number) for number in self.nodes]

    def leaves(self):
        return [number for number, node in self.nodes.items() if node.height == 0]

    def leaf_of(self, entry):
        return next(leaf for leaf in self.leaves() if entry in self.nodes[leaf].members)

    def path_to(self, number):
        """The nodes from the root to this one."""
        if number == self.root:
            return [number]
        parent = next(above for above, node in self.nodes.items() if node.height > 0 and number in node.members)
        return [*self.path_to(parent), number]

    def choose(self, rect, height):
        """The way from the root to the node of that height that is to take a member with that rectangle."""
        path = [self.root]
        while self.nodes[path[-1]].height > height:
            rects = self.member_rects(path[-1])
            place = min(range(len(rects)), key=lambda at: (rects[at].growth(rect), rects[at].area(), at))
            path.append(self.nodes[path[-1]].members[place])
        return path

    def insert(self, member, rect, height):
        path = self.choose(rect, height)
        self.nodes[path[-1]].members.append(member)
        while path:
            number = path.pop()
            if len(self.nodes[number].members) > self.most:
                self.split(number, path[-1] if path else None)

    def split(self, number, parent):
        node = self.nodes[number]
        first, second = quadratic(self.member_rects(number), self.least)
        added = self.add_node(node.height, [node.members[place] for place in second])
        node.members = [node.members[place] for place in first]
        if parent is None:
            self.root = self.add_node(node.height + 1, [number, added])
        else:
            self.nodes[parent].members.append(added)

    def add_node(self, height, members):
        number = self.next_node
        self.next_node += 1
        self.nodes[number] = Node(height, members)
        return number

    def remove(self, entry):
        path = self.path_to(self.leaf_of(entry))
        self.nodes[path[-1]].members.remove(entry)
        orphans = []
        while len(path) > 1:
            number = path.pop()
            if len(self.nodes[number].members) < self.least:
                self.nodes[path[-1]].members.remove(number)
                orphans.append(self.nodes.pop(number))
        for dropped in reversed(orphans):
            for member in dropped.members:
                rect = self.rects[member] if dropped.height == 0 else self.bound_of(member)
                self.insert(member, rect, dropped.height)
        del self.rects[entry]
        while self.nodes[self.root].height > 0 and len(self.nodes[self.root].members) == 1:
            self.root = self.nodes.pop(self.root).members[0]


def grown(tree, entry, rect):
    after = tree.copy()
    after.rects[entry] = rect
    after.insert(entry, rect, 0)
    return after


def shrunk(tree, entry):
    after = tree.copy()
    after.remove(entry)
    return after


def granules(tree, plane):
    """The points of each node's granule: a leaf's space, or what the children leave of an inner node's."""
    found = {}
    for number, node in tree.nodes.items():
        found[number] = plane.points(tree.space(number))
        if node.height > 0:
            found[number] &= ~union(plane, tree.member_rects(number))
    return found


def union(plane, rects):
    points = 0
    for rect in rects:
        points |= plane.points(rect)
    return points


# Modes and locks

MODES = ["IS", "IX", "S", "SIX", "X"]
COMPATIBLE = {"IS": {"IS", "IX", "S", "SIX"}, "IX": {"IS", "IX"}, "S": {"IS", "S"}, "SIX": {"IS"}, "X": set()}


def are_compatible(one, other):
    return other in COMPATIBLE[one]


def join(one, other):
    """The weakest mode that is compatible with no more than both are."""
    both = COMPATIBLE[one] & COMPATIBLE[other]
    return next(mode for mode in MODES if COMPATIBLE[mode] == both)


def covers(one, other):
    return one is not None and join(one, other) == one


class Needs(dict):
    """Modes by the names for which they are needed."""

    def add(self, name, mode):
        self[name] = join(self[name], mode) if name in self else mode


Need = namedtuple("Need", "name mode duration")
Edge = namedtuple("Edge", "start end name wanted state has")


class Row:
    def __init__(self, session, need, is_waiting):
        self.session = session
        self.name, self.mode, self.duration = need
        self.is_waiting = is_waiting


class Table:
    """The rows of held and of waiting locks, in order of arrival."""

    def __init__(self):
        self.rows = []

    def held(self, session, name, durations=("commit", "short")):
        mode = None
        for row in self.rows:
            if (row.session, row.name) == (session, name) and not row.is_waiting and row.duration in durations:
                mode = row.mode if mode is None else join(mode, row.mode)
        return mode

    def waiting(self, session):
        return next((row for row in self.rows if row.session == session and row.is_waiting), None)

    def blocks(self, row, session, name, mode):
        """Whether that row stands in the way of the request."""
        if row.session == session or row.name != name or are_compatible(mode, row.mode):
            return False
        return not row.is_waiting or self.held(session, name) is None

    def blockers(self, session, name, mode):
        """The sessions that block a request, as if it came behind all rows."""
        return sorted({row.session for row in self.rows if self.blocks(row, session, name, mode)})

    def blockers_of(self, waiter):
        """The sessions that block a waiting row. Of the other waiters those that came before it count."""
        place = self.rows.index(waiter)
        counted = [row for at, row in enumerate(self.rows) if at < place or not row.is_waiting]
        return sorted({row.session for row in counted
                       if self.blocks(row, waiter.session, waiter.name, waiter.mode)})

    def give(self, session, need):
        self.rows.append(Row(session, need, False))

    def wait(self, session, need):
        self.rows.append(Row(session, need, True))

    def release_short(self, session):
        self.rows = [row for row in self.rows if row.session != session or row.is_waiting or row.duration != "short"]
        self.try_waiters()

    def release_all(self, session):
        self.rows = [row for row in self.rows if row.session != session]
        self.try_waiters()

    def try_waiters(self):
        """A waiter for a commit lock that nobody blocks holds it then, one for a short lock holds nothing."""
        for row in list(self.rows):
            if row.is_waiting and not self.blockers_of(row):
                row.is_waiting = False
                if row.duration == "short":
                    self.rows.remove(row)

    def edge(self, start, end):
        waiter = self.waiting(start)
        held = self.held(end, waiter.name)
        if held is not None and not are_compatible(waiter.mode, held):
            return Edge(start, end, waiter.name, waiter.mode, "held", held)
        return Edge(start, end, waiter.name, waiter.mode, "waiting", self.waiting(end).mode)

    def cycle(self, session):
        """The edges of the shortest cycle through a waiting session, the least of these, or none."""
        blockers = {row.session: self.blockers_of(row) for row in self.rows if row.is_waiting}
        distances = distances_to(session, blockers)
        edges, at = [], session
        while not edges or at != session:
            ways = [(distances[other], other) for other in blockers[at] if other in distances]
            if not ways:
                return []
            edges.append(self.edge(at, min(ways)[1]))
            at = edges[-1].end
        return edges


def distances_to(goal, blockers):
    """The fewest edges from each session to the goal, where there is a way."""
    distances, distance = {goal: 0}, 0
    while distance in distances.values():
        last = {session for session, known in distances.items() if known == distance}
        distance += 1
        for session, others in blockers.items():
            if session not in distances and last.intersection(others):
                distances[session] = distance
    return distances


# Entries and transactions

DONE = "done"


class Entry:
    """A record in the tree with its marks. Transactions are named by their numbers."""

    def __init__(self, number, ident, rect, value, made):
        self.number = number
        self.ident = ident
        self.rect = rect
        self.value = value
        self.made = made  # None once it is committed
        self.ended = None  # None, a transaction, or DONE
        self.draft = None  # None, or a transaction and its value

    def has_draft_of(self, txn):
        return self.draft is not None and self.draft[0] == txn

    def has_mark_of(self, txn):
        return self.ended != DONE and (txn in (self.made, self.ended) or self.has_draft_of(txn))

    def is_changed_by(self, txn):
        return self.has_mark_of(txn) and not self.made == self.ended == txn

    def is_visible_to(self, txn):
        return self.made in (None, txn) and self.ended not in (txn, DONE)

    def record(self, txn):
        return [self.ident, *self.rect, self.draft[1] if self.has_draft_of(txn) else self.value]

    def settle(self, txn):
        """The transaction has a place."""
        self.made = None if self.made == txn else self.made
        self.ended = DONE if self.ended == txn else self.ended
        if self.has_draft_of(txn):
            self.value, self.draft = self.draft[1], None

    def undo(self, txn):
        if self.made == txn:
            self.ended = DONE
        elif self.ended == txn:
            self.ended = None
        if self.has_draft_of(txn):
            self.draft = None


OUT, IDLE, STARTED, NAME_WAIT, NAMED, NEED_WAIT, PLANNED, QUEUED, PLACED = (
    "out", "idle", "started", "name wait", "named", "need wait", "planned", "queued", "placed")


class Session:
    """A session with a transaction."""

    def __init__(self, number, txn, seen):
        self.number = number
        self.txn = txn
        self.seen = seen
        self.phase = IDLE
        self.ops = []  # each operation with its reply
        self.searches = []  # the rectangles of its finds, fills and clears
        self.operation = None
        self.needs = []


# Operations are tuples of a word, the id where they have one, the rectangle where they have one, and the value where
# they have one.

Put = namedtuple("Put", "word ident rect value")
Drop = namedtuple("Drop", "word ident")
Set = namedtuple("Set", "word ident value")
Get = namedtuple("Get", "word ident")
Find = namedtuple("Find", "word rect")
Fill = namedtuple("Fill", "word rect value")
Clear = namedtuple("Clear", "word rect")
OPERATIONS = {kind.__name__.lower(): kind for kind in (Put, Drop, Set, Get, Find, Fill, Clear)}
OBJECT_MODES = {"put": "X", "drop": "X", "set": "X", "get": "S"}
SEARCHES = ("find", "fill", "clear")
READERS = ("get", "find")


# Needs of operations


def search_needs(tree, rect):
    """A search reads all granules that it meets."""
    needs = Needs()
    plane = Plane([*tree.spaces(), rect])
    for number, points in granules(tree, plane).items():
        if points & plane.points(rect):
            needs.add(("granule", number), "S")
    return needs


def sweep_needs(tree, entries, rect):
    """A fill or a clear also writes the leaves and the objects of all entries that it meets, dead ones too."""
    needs = search_needs(tree, rect)
    for entry in entries:
        if entry.rect.meets(rect):
            needs.add(("granule", tree.leaf_of(entry.number)), "SIX")
            needs.add(("object", entry.ident), "X")
    return needs


def insertion_needs(before, after, entry, searches):
    """What an insertion keeps: the leaf that it writes, and, where granules change, what its transaction searched."""
    needs = Needs()
    leaf = after.leaf_of(entry)
    if leaf in before.nodes:
        needs.add(("granule", leaf), "IX")
    plane = Plane([*before.spaces(), *after.spaces(), *searches])
    old, new = granules(before, plane), granules(after, plane)
    if any(number not in old or old[number] != points for number, points in new.items()):
        for number, points in new.items():
            if number in old and points & union(plane, searches):
                needs.add(("granule", number), "S")
    return needs


def short_needs(before, after, chosen=None):
    """What licenses a change of the tree. An insertion has chosen a leaf, a removal none."""
    needs = Needs()
    plane = Plane([*before.spaces(), *after.spaces()])
    old, new = granules(before, plane), granules(after, plane)
    losing = {number for number in old if number not in new or old[number] & ~new[number]}
    giving = {leaf for leaf in before.leaves() for entry in before.nodes[leaf].members
              if entry in after.rects and after.leaf_of(entry) != leaf}
    gained = gained_points(before, after, old, new)
    for leaf in before.leaves():
        if leaf in losing | giving | {chosen}:
            gained &= ~old[leaf]
    for number, points in old.items():
        if number in losing or points & gained:
            needs.add(("granule", number), "IX")
        if number in giving:
            needs.add(("granule", number), "SIX")
    return needs


def gained_points(before, after, old, new):
    """The points that some leaf has now and the leaf of that number did not have before."""
    gained = 0
    for leaf in after.leaves():
        gained |= new[leaf] & ~(old[leaf] if leaf in before.nodes else 0)
    return gained


# The kernel

MOST_OPEN = 64
MOST_OPERATIONS = 4096
MOST_ENDINGS = 2 ** 20

WANTED_PHASES = {
    "start": [IDLE],
    "name": [STARTED, NAME_WAIT],
    "plan": [NAMED, NEED_WAIT],
    "ask": [PLANNED],
    "apply": [PLANNED],
    "commit": [IDLE, QUEUED, PLACED],
    "rollback": [IDLE, STARTED, NAME_WAIT, NAMED, NEED_WAIT, PLANNED],
}


class Kernel:
    """Sessions over one tree. `step` does one event; each answer is a tuple that begins with its word."""

    def __init__(self, most, least, base=()):
        self.base = sorted(base)
        self.tree = Tree(most, least)
        self.entries = {}
        self.next_entry = 1
        for ident, x1, y1, x2, y2, value in self.base:
            self.add_entry(ident, Rect(x1, y1, x2, y2), value, None)
        self.table = Table()
        self.sessions = {}
        self.begun = 0
        self.dead = []
        self.queued = []
        self.batch = []
        self.disk_calls = 0  # done for the batch
        self.commits = []
        self.endings = []

    def step(self, event, session=None, operation=None):
        if event == "flush":
            return self.flush()
        if event == "clean":
            return self.clean()
        refusal = self.refusal(event, session)
        if refusal is not None:
            return "refused", refusal
        if event == "begin":
            return self.begin(session)
        if event == "start":
            return self.start(self.sessions[session], operation)
        return getattr(self, event)(self.sessions[session])

    def phase(self, session):
        return self.sessions[session].phase if session in self.sessions else OUT

    def refusal(self, event, session):
        phase = self.phase(session)
        if event == "begin":
            return None if phase == OUT else "busy" if phase in (QUEUED, PLACED) else "intxn"
        if phase == OUT:
            return "notxn"
        is_wanted = phase in WANTED_PHASES[event]
        if event in ("ask", "apply"):
            is_wanted = is_wanted and bool(self.sessions[session].needs) == (event == "ask")
        if is_wanted:
            return None
        return "busy" if event in ("start", "commit", "rollback") else "phase"

    # Events of one session

    def begin(self, number):
        transactions = [session for session in self.sessions.values() if session.phase != PLACED]
        if len(transactions) >= MOST_OPEN:
            return "full", "transactions"
        if len(self.commits) + len(self.endings) + len(transactions) >= MOST_ENDINGS:
            return "full", "commits"
        self.begun += 1
        self.sessions[number] = Session(number, self.begun, len(self.commits))
        return "began", len(self.commits)

    def start(self, session, operation):
        if len(session.ops) >= MOST_OPERATIONS:
            return "full", "operations"
        session.operation = operation
        session.phase = STARTED
        return ("started",)

    def name(self, session):
        if session.phase == NAME_WAIT:
            row = self.table.waiting(session.number)
            if row is not None:
                return "still", row.name
            session.phase = NAMED
            return ("granted",)
        operation = session.operation
        if operation.word not in OBJECT_MODES:
            session.phase = NAMED
            return ("granted",)
        need = Need(("object", operation.ident), OBJECT_MODES[operation.word], "commit")
        return self.request(session, need, NAMED, NAME_WAIT)

    def request(self, session, need, granted, waiting):
        """Asks for a lock; the phases are those after it is granted and while it waits."""
        if not self.table.blockers(session.number, need.name, need.mode):
            self.table.give(session.number, need)
            session.phase = granted
            return ("granted",)
        self.table.release_short(session.number)
        blockers = self.table.blockers(session.number, need.name, need.mode)
        assert blockers, "own short locks free no request"
        self.table.wait(session.number, need)
        cycle = self.table.cycle(session.number)
        if cycle:
            self.endings.append({"txn": session.txn, "cycle": cycle})
            self.undo(session)
            return "deadlock", cycle
        session.phase = waiting
        return "waits", need.name, need.mode, blockers

    def plan(self, session):
        row = self.table.waiting(session.number)
        if row is not None:
            return "still", row.name
        holders = self.latch_holders(session.operation.word in READERS)
        if holders:
            return "latch", holders[0]
        session.needs = self.needs(session)
        session.phase = PLANNED
        return "planned", len(session.needs)

    def latch_holders(self, is_shared):
        """The sessions whose latch keeps another one out."""
        return sorted(session.number for session in self.sessions.values() if session.phase == PLANNED
                      and not (is_shared and session.operation.word in READERS))

    def ask(self, session):
        answer = self.request(session, session.needs[0], PLANNED, NEED_WAIT)
        session.needs = session.needs[1:] if answer == ("granted",) else []
        return answer

    def apply(self, session):
        operation = session.operation
        reply = getattr(self, "apply_" + operation.word)(session, operation)
        session.ops.append((operation, reply))
        if operation.word in SEARCHES:
            session.searches.append(operation.rect)
        session.phase = IDLE
        self.table.release_short(session.number)
        return reply

    def commit(self, session):
        if session.phase == PLACED:
            del self.sessions[session.number]
            return "committed", [commit["place"] for commit in self.commits if commit["txn"] == session.txn][0]
        if session.phase == IDLE and not any(entry.is_changed_by(session.txn) for entry in self.entries.values()):
            self.place([session])
            del self.sessions[session.number]
            return "committed", len(self.commits)
        if session.phase == IDLE:
            self.queued.append(session)
            session.phase = QUEUED
        return ("queued",)

    def rollback(self, session):
        self.undo(session)
        return ("rolledback",)

    def undo(self, session):
        del self.sessions[session.number]
        self.mark_all([(Entry.undo, session.txn)])
        self.table.release_all(session.number)

    # Events of no session

    def flush(self):
        if not self.batch:
            self.batch, self.queued, self.disk_calls = self.queued, [], 0
        if not self.batch:
            return ("nothing",)
        self.disk_calls += 1
        if self.disk_calls < 4:
            return ("wrote",)
        placed, self.batch = self.batch, []
        self.place(placed)
        return "durable", len(self.commits) - len(placed) + 1, len(placed)

    def clean(self):
        holders = self.latch_holders(False)
        if holders:
            return "latch", holders[0]
        if not self.dead:
            return ("nothing",)
        number = self.dead.pop(0)
        after = shrunk(self.tree, number)
        obstacle = self.obstacle(short_needs(self.tree, after))
        if obstacle is not None:
            self.dead.append(number)
            return ("later", *obstacle)
        self.tree = after
        del self.entries[number]
        return "removed", number

    def obstacle(self, needs):
        """The first of the needs with which a held lock is incompatible: the name, the least session, what it holds."""
        for name in sorted(needs):
            for session in sorted(self.sessions):
                held = self.table.held(session, name)
                if held is not None and not are_compatible(needs[name], held):
                    return name, session, held
        return None

    # Ends of transactions

    def place(self, sessions):
        """These transactions take the next places."""
        self.mark_all([(Entry.settle, session.txn) for session in sessions])
        for session in sessions:
            self.commits.append({"session": session.number, "txn": session.txn, "seen": session.seen,
                                 "place": len(self.commits) + 1, "ops": session.ops})
            session.phase = PLACED
            self.table.release_all(session.number)

    def mark_all(self, changes):
        """Changes the marks of all entries; those that are done by it are dead from then on."""
        alive = [entry for entry in self.entries.values() if entry.ended != DONE]
        for entry in alive:
            for change, txn in changes:
                change(entry, txn)
        self.dead += sorted(entry.number for entry in alive if entry.ended == DONE)

    # Planning and applying

    def visible_of_id(self, session, ident):
        return next((entry for entry in self.entries.values()
                     if entry.ident == ident and entry.is_visible_to(session.txn)), None)

    def visible_in(self, session, rect):
        found = [entry for entry in self.entries.values()
                 if entry.rect.meets(rect) and entry.is_visible_to(session.txn)]
        return sorted(found, key=lambda entry: entry.ident)

    def adds_record(self, session):
        operation = session.operation
        return operation.word == "put" and self.visible_of_id(session, operation.ident) is None

    def needs(self, session):
        """The needs that are to be asked for, in order."""
        commit, short = self.commit_needs(session), Needs()
        if self.adds_record(session):
            rect = session.operation.rect
            chosen = self.tree.choose(rect, 0)[-1]
            short = short_needs(self.tree, self.grown_by(rect), chosen)
        held = {name: self.table.held(session.number, name, ["commit"]) for name in [*commit, *short]}
        return [*(Need(name, commit[name], "commit") for name in sorted(commit)
                  if not covers(held[name], commit[name])),
                *(Need(name, short[name], "short") for name in sorted(short)
                  if not covers(held[name], short[name]) and not covers(commit.get(name), short[name]))]

    def commit_needs(self, session):
        operation = session.operation
        if operation.word == "find":
            return search_needs(self.tree, operation.rect)
        if operation.word in ("fill", "clear"):
            return sweep_needs(self.tree, self.entries.values(), operation.rect)
        if self.adds_record(session):
            return insertion_needs(self.tree, self.grown_by(operation.rect), self.next_entry, session.searches)
        needs = Needs()
        entry = self.visible_of_id(session, operation.ident)
        if operation.word in ("drop", "set") and entry is not None:
            needs.add(("granule", self.tree.leaf_of(entry.number)), "IX")
        return needs

    def grown_by(self, rect):
        return grown(self.tree, self.next_entry, rect)

    def apply_put(self, session, operation):
        if not self.adds_record(session):
            return ("exists",)
        before = self.tree
        self.add_entry(operation.ident, operation.rect, operation.value, session.txn)
        for name, mode in self.new_node_locks(before, session).items():
            self.table.give(session.number, Need(name, mode, "commit"))
        return ("done",)

    def add_entry(self, ident, rect, value, made):
        self.tree = self.grown_by(rect)
        self.entries[self.next_entry] = Entry(self.next_entry, ident, rect, value, made)
        self.next_entry += 1

    def new_node_locks(self, before, session):
        """What a transaction holds on the nodes that its insertion made: nobody else can hold anything there."""
        locks = Needs()
        plane = Plane([*self.tree.spaces(), *session.searches])
        searched = union(plane, session.searches)
        for number, points in granules(self.tree, plane).items():
            if number in before.nodes:
                continue
            node = self.tree.nodes[number]
            if node.height == 0 and any(self.entries[entry].has_mark_of(session.txn) for entry in node.members):
                locks.add(("granule", number), "IX")
            if points & searched:
                locks.add(("granule", number), "S")
        return locks

    def apply_drop(self, session, operation):
        entry = self.visible_of_id(session, operation.ident)
        if entry is None:
            return ("absent",)
        entry.ended = session.txn
        return ("done",)

    def apply_set(self, session, operation):
        entry = self.visible_of_id(session, operation.ident)
        if entry is None:
            return ("absent",)
        entry.draft = (session.txn, operation.value)
        return ("done",)

    def apply_get(self, session, operation):
        entry = self.visible_of_id(session, operation.ident)
        return ("absent",) if entry is None else ("rec", entry.record(session.txn))

    def apply_find(self, session, operation):
        return "found", [entry.record(session.txn) for entry in self.visible_in(session, operation.rect)]

    def apply_fill(self, session, operation):
        found = self.visible_in(session, operation.rect)
        for entry in found:
            entry.draft = (session.txn, operation.value)
        return "count", len(found)

    def apply_clear(self, session, operation):
        found = self.visible_in(session, operation.rect)
        for entry in found:
            entry.ended = session.txn
        return "count", len(found)


# Lines of a script

LONGEST_LINE = 512
ID = re.compile("0|[1-9][0-9]*")
COORDINATE = re.compile("0|-?[1-9][0-9]{0,9}")
VALUE = re.compile("[!-~]{1,64}")
SESSION = re.compile("([A-Z])([0-9]{0,2})")
BARE_EVENTS = {"play": ["begin", "commit", "rollback"],
               "drill": ["begin", "name", "plan", "ask", "apply", "commit", "rollback"]}


class Bad(Exception):
    """A line that is none of the language; the session is there where the line names one."""

    def __init__(self, session, reason):
        super().__init__(reason)
        self.session = session
        self.reason = reason


def lines(data):
    """The lines that are not blank."""
    *ended, rest = data.decode("latin-1").split("\n")
    found = [line[:-1] if line.endswith("\r") else line for line in ended] + [rest]
    return [line for line in found if line and not line.startswith("#")]


def read_line(line, form):
    """The session, the event and the operation. A command that is an operation is the event `start`."""
    if len(line) > LONGEST_LINE:
        raise Bad(None, "long")
    if form == "drill" and line in ("flush", "clean"):
        return None, line, None
    name, *words = line.split(" ")
    session = session_number(name)
    if session is None:
        raise Bad(None, "session")
    if words and words[0] in BARE_EVENTS[form]:
        if len(words) > 1:
            raise Bad(session, "words")
        return session, words[0], None
    if form == "drill":
        if words[:1] != ["start"]:
            raise Bad(session, "command")
        words = words[1:]
    if not words or words[0] not in OPERATIONS:
        raise Bad(session, "command")
    return session, "start", read_operation(session, *words)


def read_operation(session, word, *words):
    kind = OPERATIONS[word]
    given = {}
    for field in kind._fields[1:]:
        width = 4 if field == "rect" else 1
        given[field], words = words[:width], words[width:]
        if len(given[field]) != width:
            raise Bad(session, "words")
    if words:
        raise Bad(session, "words")
    idents, coordinates, values = (given.get(field, ()) for field in ("ident", "rect", "value"))
    if not all(is_id(text) for text in idents) or not all(COORDINATE.fullmatch(text) for text in coordinates):
        raise Bad(session, "number")
    if coordinates and not is_in_space(*map(int, coordinates)):
        raise Bad(session, "rect")
    if not all(VALUE.fullmatch(text) for text in values):
        raise Bad(session, "value")
    return kind(word, *map(int, idents), *([Rect(*map(int, coordinates))] if coordinates else []), *values)


def is_id(text):
    return ID.fullmatch(text) is not None and int(text) < 2 ** 64


def session_number(name):
    found = SESSION.fullmatch(name)
    if found is None:
        return None
    letter, digits = found.groups()
    return 111 * (ord(letter) - ord("A")) + (0, 1, 11)[len(digits)] + int(digits or 0)


def session_name(number):
    letter, rest = divmod(number, 111)
    digits = "" if rest == 0 else str(rest - 1) if rest < 11 else "%02d" % (rest - 11)
    return chr(ord("A") + letter) + digits


# Texts of answers


def answer_lines(answer):
    word, *rest = answer
    if word == "rec":
        return [record_text(rest[0])]
    if word == "found":
        return ["found %d" % len(rest[0]), *map(record_text, rest[0])]
    if word == "waits":
        name, mode, blockers = rest
        return [spaced("waits", *name, mode, *map(session_name, blockers))]
    if word == "deadlock":
        return ["deadlock %d" % len(rest[0]), *map(edge_text, rest[0])]
    if word == "still":
        return [spaced("still", *rest[0])]
    if word == "latch":
        return [spaced("latch", session_name(rest[0]))]
    if word == "later":
        name, session, mode = rest
        return [spaced("later", *name, session_name(session), mode)]
    return [spaced(*answer)]


def spaced(*words):
    return " ".join(map(str, words))


def record_text(record):
    return spaced("rec", *record)


def edge_text(edge):
    return spaced("edge", session_name(edge.start), session_name(edge.end), *edge.name,
                  edge.wanted, edge.state, edge.has)


def audit_text(kernel):
    commits = [{**commit, "ops": [[flat(operation), reply] for operation, reply in commit["ops"]]}
               for commit in kernel.commits]
    endings = [{**ending, "cycle": [[edge.start, edge.end, *edge.name, edge.wanted, edge.state, edge.has]
                                    for edge in ending["cycle"]]} for ending in kernel.endings]
    return json.dumps({"base": kernel.base, "commits": commits, "ended": endings}, sort_keys=True,
                      separators=(",", ":")) + "\n"


def flat(operation):
    return [part for field in operation for part in (field if isinstance(field, Rect) else [field])]


# Runs of scripts


class Run:
    """A script's answers over a kernel."""

    def __init__(self, kernel):
        self.kernel = kernel
        self.out = []
        self.answers = []

    def tell(self, first_word, answer):
        self.answers.append(answer)
        self.out += ["%s %s\n" % (first_word, line) for line in answer_lines(answer)]

    def line(self, line):
        try:
            session, event, operation = read_line(line, self.form)
        except Bad as bad:
            self.tell("?" if bad.session is None else session_name(bad.session), ("bad", bad.reason))
        else:
            self.good_line(session, event, operation)

    def text(self):
        return "".join(self.out)


class Drill(Run):
    form = "drill"

    def good_line(self, session, event, operation):
        batch = self.kernel.batch
        answer = self.kernel.step(event, session, operation)
        self.tell("-" if session is None else session_name(session), answer)
        if answer[0] == "durable":
            for placed in batch:
                self.tell(session_name(placed.number), self.kernel.step("commit", placed.number))

    def end(self):
        pass


class Play(Run):
    form = "play"

    def __init__(self, kernel):
        super().__init__(kernel)
        self.stalled = []

    def good_line(self, session, event, operation):
        self.tell(session_name(session), self.command(session, event, operation))
        self.wake()
        for _ in list(self.kernel.dead):
            self.kernel.step("clean")

    def command(self, session, event, operation):
        answer = self.kernel.step(event, session, operation)
        if answer == ("started",):
            return self.operate(session)
        if answer == ("rolledback",) and session in self.stalled:
            self.stalled.remove(session)
        if answer == ("queued",):
            while self.kernel.step("flush")[0] != "durable":
                pass
            return self.kernel.step("commit", session)
        return answer

    def operate(self, session):
        """Goes on with an operation, until it is answered or waits."""
        answer = ("started",)
        while answer[0] in ("started", "granted", "planned"):
            answer = self.kernel.step(self.next_event(session), session)
        if answer[0] == "waits":
            self.stalled.append(session)
        return answer

    def next_event(self, session):
        phase = self.kernel.phase(session)
        if phase == PLANNED:
            return "ask" if self.kernel.sessions[session].needs else "apply"
        return "name" if phase in (STARTED, NAME_WAIT) else "plan"

    def wake(self):
        """Lets stalled sessions go on, the first whose row waits no more, until all that are left still wait."""
        while ready := [session for session in self.stalled if self.kernel.table.waiting(session) is None]:
            self.stalled.remove(ready[0])
            self.tell(session_name(ready[0]), self.operate(ready[0]))

    def end(self):
        for session in sorted(self.kernel.sessions):
            self.tell(session_name(session), self.kernel.step("rollback", session))


FORMS = {"play": Play, "drill": Drill}


def run(form, data, most=16, least=6, base=()):
    """The run of a script of bytes that has come to its end."""
    done = FORMS[form](Kernel(most, least, base))
    for line in lines(data):
        done.line(line)
    done.end()
    return done


# The words of the program

NUMBER = re.compile("[1-9][0-9]{0,9}")


def read_words(words):
    """The form, most, least, and whether the audit is wanted; None where the words are not in the grammar."""
    if not words or words[0] not in FORMS:
        return None
    given, rest = {}, list(words[1:])
    while rest:
        option, is_joined, value = rest.pop(0).partition("=")
        if option in given or option not in ("--max", "--min", "--audit") or (option == "--audit" and is_joined):
            return None
        if option != "--audit" and not is_joined:
            if not rest:
                return None
            value = rest.pop(0)
        if option != "--audit" and not NUMBER.fullmatch(value):
            return None
        given[option] = value
    most = int(given.get("--max", 16))
    least = int(given.get("--min", max(2, 2 * most // 5)))
    if not 4 <= most <= 64 or not 2 <= least <= most // 2:
        return None
    return words[0], most, least, "--audit" in given


def answer_words(words, data):
    """The status and what is written."""
    read = read_words(words)
    if read is None:
        return 1, "! usage\n"
    form, most, least, is_audited = read
    done = run(form, data, most, least)
    return 0, done.text() + (audit_text(done.kernel) if is_audited else "")


def main(words):
    if words == ["--rows"]:
        sys.dont_write_bytecode = True
        import model_rows
        return model_rows.main()
    status, text = answer_words(words, sys.stdin.buffer.read() if read_words(words) else b"")
    sys.stdout.write(text)
    return status


if __name__ == "__main__":
    sys.exit(main(sys.argv[1:]))
