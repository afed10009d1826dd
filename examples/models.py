"""Models of designs, in a few additions each: what the transactions of a list of events have come to, and the rows. `crash` holds what the
program wrote and printed against them."""
import random

from trials import HERE, Differs

VICTIM, CRASH = (5, 0), (6, 0)  # what a turn of these causes holds behind its number; for a refusal these are 1 and its number
FIRST_KIND, SECOND_KIND = 0, 1  # the types of each of the designs: one of one step, one of two


class Model:
    """What the transactions of these events have come to. Each event has to be lawful behind those before it."""

    def __init__(self, events):
        self.calls, self.steps, self.turned, self.over, self.most = [], [], {}, set(), 0
        for event in events:
            if event[0] == "begin":
                self.calls.append(event[1:])
                self.steps.append(0)
                self.most = max(self.most, self.unfinished())
            elif event in self.lawful(event[1]):
                self.take(*event)
            else:
                raise Differs(f"the event {event} of {self.calls[event[1] - 1 : event[1]]} isn't lawful")

    def lawful(self, number):
        """The events that may come next of a transaction."""
        if not 1 <= number <= len(self.calls) or number in self.over:
            return []
        if number in self.turned:
            return [("back", number)]
        crash, refusal = ("turn", number, *CRASH), self.refusal(number)
        if refusal:
            return [crash, ("turn", number, 1, refusal)]
        if self.is_held(number):
            return [crash, ("turn", number, *VICTIM)] if self.is_stuck() else [crash]
        return [crash, ("step", number)]

    def is_stuck(self):
        """Whether each of those that are unfinished waits for another one."""
        return all(number not in self.turned and not self.refusal(number) and self.is_held(number) for number in self.left())

    def is_held(self, number):
        """Whether another transaction forbids the next step of one."""
        return False

    def take(self, kind, number, *cause):
        if kind == "turn":
            self.turned[number] = cause
        elif kind == "back":
            self.undo(number)
            self.over.add(number)
        else:
            self.steps[number - 1] += 1
            self.step(number)
            if self.steps[number - 1] == 1 + (self.calls[number - 1][0] == SECOND_KIND):
                self.over.add(number)

    def came_to(self, number):
        """The reply of a transaction, or None while it is unfinished."""
        if number not in self.over:
            return None
        if number in self.turned:
            cause = self.turned[number]
            return f"compensated {dict([(VICTIM, 'victim'), (CRASH, 'crash')]).get(cause, f'refused {cause[1]}')}"
        return f"committed {self.value(number)}" if self.calls[number - 1][0] == SECOND_KIND else "committed"

    def left(self):
        return [number for number in range(1, len(self.calls) + 1) if number not in self.over]

    def unfinished(self):
        return len(self.calls) - len(self.over)

    def victims(self):
        return list(self.turned.values()).count(VICTIM)

    def compensation(self):
        """The events by which recovery ends what is unfinished."""
        left = self.left()
        return [("turn", number, *CRASH) for number in left if number not in self.turned] + [("back", number) for number in left]

    @classmethod
    def files(cls):
        return [f"{HERE}/{cls.NAME}.{kind}" for kind in ("design", "cert")]

    @classmethod
    def calls_of(cls, script):
        """The type and the parameters of each line, as they stand in its beginning."""
        return [(cls.KINDS.index(kind), tuple(map(int, values))) for kind, *values in map(str.split, script)]


class Transfers(Model):
    """transfer.design: a fund is one step, a transfer two, with a step back between. A transfer is refused where one of its accounts isn't
    there at its first step. Nobody waits."""

    NAME, KINDS = "transfer", ["fund", "move"]
    ACCOUNTS = 20  # those of the second process have higher numbers
    SHORT = ["fund 1 21 5", "fund 1 22 5", "move 1 21 22 3", "move 1 22 21 4"]
    SHORT_ORDER = [1, 2, 3, 4, 4, 3]

    def __init__(self, events):
        self.accounts, self.total = {}, 0
        super().__init__(events)

    def refusal(self, number):
        kind, values = self.calls[number - 1]
        first = kind == SECOND_KIND and self.steps[number - 1] == 0
        return 1 if first and not {values[1], values[2]} <= self.accounts.keys() else 0

    def step(self, number):
        kind, values = self.calls[number - 1]
        if kind == FIRST_KIND:
            self.accounts[values[1]] = self.accounts.get(values[1], 0) + values[2]
            self.total += values[2]
        else:
            first = self.steps[number - 1] == 1
            self.accounts[values[1 if first else 2]] += -values[3] if first else values[3]

    def undo(self, number):
        if self.steps[number - 1] == 1:
            values = self.calls[number - 1][1]
            self.accounts[values[1]] += values[3]

    def value(self, number):
        return self.calls[number - 1][1][3]

    def rows(self):
        """The rows; the bank's total has to be the sum of its accounts."""
        if self.total != sum(self.accounts.values()) and not self.left():
            raise Differs(f"the model's total is {self.total}, and its accounts have {sum(self.accounts.values())}")
        bank = [f"BANK 1 : {self.total}"] if self.accounts else []
        return bank + [f"ACC 1 {a} : {self.accounts[a]}" for a in sorted(self.accounts)]

    @classmethod
    def is_own(cls, values):
        return values[1] <= cls.ACCOUNTS

    @classmethod
    def script_of(cls, count):
        funds = [f"fund 1 {a} {random.randrange(1000, 2000)}" for a in range(1, cls.ACCOUNTS + 1)]
        pairs = [random.sample(range(1, cls.ACCOUNTS + 1), 2) for _ in range(count)]
        return funds + [f"move 1 {x} {y} {random.randrange(1, 50)}" for x, y in pairs]

    @classmethod
    def order_of(cls, count):
        """Each transfer's two turns, mixed: up to 32 are under way at a time."""
        order, under_way = list(range(1, cls.ACCOUNTS + 1)), []
        for place in range(cls.ACCOUNTS + 1, cls.ACCOUNTS + count + 1):
            under_way.append(place)
            order.append(place)
            if len(under_way) == 32:
                order.append(under_way.pop(random.randrange(32)))
        random.shuffle(under_way)
        return order + under_way


class Counter(Model):
    """counter.design: one type makes a cell, in one step; the other reads it in one and writes one more in the next. Between them it
    forbids the next step of all others that stand there over its cell. So where several do, they wait for one another, up to a victim."""

    NAME, KINDS, MOST = "counter", ["make", "bump"], None
    CELLS = 6  # that of the second process has a higher number
    SHORT = ["make 7", "bump 7", "bump 7", "bump 8"]

    def __init__(self, events):
        self.cells, self.read, self.between = {}, {}, {}
        super().__init__(events)

    def refusal(self, number):
        kind, (cell,) = self.calls[number - 1]
        if kind == FIRST_KIND:
            return int(cell in self.cells)
        if self.steps[number - 1]:
            return 0
        return 1 if cell not in self.cells else 2 if self.cells[cell] == self.MOST else 0

    def is_held(self, number):
        return self.steps[number - 1] == 1 and len(self.between[self.calls[number - 1][1]]) > 1

    def step(self, number):
        kind, (cell,) = self.calls[number - 1]
        if kind == FIRST_KIND:
            self.cells[cell] = 0
        elif self.steps[number - 1] == 1:
            self.read[number] = self.cells[cell]
            self.between.setdefault((cell,), set()).add(number)
        else:
            self.cells[cell] = self.read[number] + 1
            self.between[(cell,)].remove(number)

    def undo(self, number):
        self.between.get(self.calls[number - 1][1], set()).discard(number)

    def value(self, number):
        return self.read[number]

    def rows(self):
        """The rows; nothing that was counted is lost."""
        bumps = [self.calls[number - 1][1][0] for number in self.over - self.turned.keys() if self.calls[number - 1][0] == SECOND_KIND]
        for cell, count in self.cells.items():
            if count != bumps.count(cell):
                raise Differs(f"the model's cell {cell} has {count}, and {bumps.count(cell)} have committed")
        return [self.row(cell, self.cells[cell]) for cell in sorted(self.cells)]

    def row(self, cell, count):
        return f"CELL {cell} : {count}"

    @classmethod
    def is_own(cls, values):
        return values[0] <= cls.CELLS

    @classmethod
    def script_of(cls, count):
        """The last cell isn't there for the first half."""
        makes = [f"{cls.KINDS[0]} {cell}" for cell in range(1, cls.CELLS)]
        twos = [f"{cls.KINDS[1]} {random.randint(1, cls.CELLS)}" for _ in range(count)]
        twos.insert(count // 2, f"{cls.KINDS[0]} {cls.CELLS}")
        return makes + twos


class Hall(Counter):
    """hall.design: the same with halls, each of which sells 50 pairs of seats."""

    NAME, KINDS, MOST = "hall", ["open", "sell"], 50
    SHORT = ["open 7", "sell 7", "sell 7", "sell 8"]

    def row(self, cell, count):
        return f"HALL {cell} : {count} {2 * count}"
