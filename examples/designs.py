"""Designs as `acc print` spells them, read by a reader of their own, and the machine without locks over them: what `audits` holds the program
against. It follows docs/DESIGN-LANGUAGE.md, docs/MODEL.md and docs/JOURNAL.md, and none of the program's code. Numbers out of range are left
out, so what is drawn has to be small."""
import itertools
import re
import struct

TOKEN = re.compile(r"<=|=>|[A-Za-z][A-Za-z0-9_]*|[0-9]+|[][,.:=+*-]")
MOST_TUPLES = 2**20
NOT_ASKED = 0xFFFF_FFFF
REFUSED, LIMIT, ASKED, VICTIM, CRASH = 1, 3, 4, 5, 6  # causes, as a journal has them


class Words:
    """The words of a statement, from the left."""

    def __init__(self, line):
        self.words, self.at = TOKEN.findall(line), 0

    def peek(self):
        return self.words[self.at] if self.at < len(self.words) else None

    def take(self, wanted=None):
        word = self.peek()
        if word is None or wanted not in (None, word):
            raise ValueError(f"{word!r} and not {wanted!r} in {' '.join(self.words)}")
        self.at += 1
        return word

    def has(self, word):
        if self.peek() == word:
            self.at += 1
            return True
        return False

    def listed(self, read):
        items = [read()]
        while self.has(","):
            items.append(read())
        return items


class Reader:
    """What is read in one scope: tables by name, and the numbers of variables."""

    def __init__(self, tables, names):
        self.tables, self.names = tables, names

    def atom(self, words):
        """A variable's number, or a row's column, presence, count or sum."""
        word = words.take()
        if word in ("has", "count"):
            return (word, *self.row(words), None)
        if word == "sum":
            table, key = self.row(words)
            words.take(".")
            return ("sum", table, key, self.tables[table][1].index(words.take()))
        if words.peek() == "[":
            words.at -= 1
            table, key = self.row(words)
            words.take(".")
            return ("column", table, key, self.tables[table][1].index(words.take()))
        return ("variable", self.names.index(word))

    def row(self, words):
        table = words.take()
        words.take("[")
        key = words.listed(lambda: self.form(words))
        words.take("]")
        return table, key

    def form(self, words):
        """Terms, each a coefficient and an atom, and a constant."""
        terms, constant = [], 0
        sign = -1 if words.has("-") else 1
        while True:
            if words.peek().isdigit():
                number = int(words.take())
                if words.has("*"):
                    terms.append((sign * number, self.atom(words)))
                else:
                    constant += sign * number
            else:
                terms.append((sign, self.atom(words)))
            if words.has("+"):
                sign = 1
            elif words.has("-"):
                sign = -1
            else:
                return terms, constant

    def relation(self, words):
        form = self.form(words)
        equal = words.take() == "="
        words.take("0")
        return form, equal


def clause_in(line, tables, names):
    """A clause: how many variables are its own, the relations before `=>`, and the last one."""
    words, own = Words(line), []
    if words.has("forall"):
        while not words.has(":"):
            own.append(words.take())
    reader = Reader(tables, names + own)
    relations = words.listed(lambda: reader.relation(words))
    if words.has("=>"):
        return len(own), relations, reader.relation(words)
    return len(own), [], relations[0]


class Design:
    """A design, from its print."""

    def __init__(self, text):
        self.tables, self.always, self.types, self.entries = {}, [], [], []
        for line in text.splitlines():
            word, _, rest = line.partition(" ")
            getattr(self, f"read_{word}", self.read_in_step)(rest, line)

    def names(self):
        return [*self.types[-1]["locals"], "self"]

    def read_table(self, rest, line):
        name, width, *columns = rest.split()
        self.tables[name] = (int(width), columns)

    read_private = read_table

    def read_always(self, rest, line):
        self.always.append(clause_in(rest, self.tables, []))

    def read_type(self, rest, line):
        name, *params = rest.split()
        self.types.append({"name": name, "params": len(params), "locals": params, "returns": [], "points": []})

    def read_limit(self, rest, line):
        self.types[-1]["limit"] = int(rest)

    def read_returns(self, rest, line):
        self.types[-1]["returns"] = rest.split()

    def read_local(self, rest, line):
        self.types[-1]["locals"] += rest.split()

    def read_ensures(self, rest, line):
        pass

    read_repairs = read_variant = read_hint = read_ensures

    def read_point(self, rest, line):
        self.types[-1]["points"].append({"name": rest, "holds": [], "next": ([], []), "undo": ([], [])})

    def read_holds(self, rest, line):
        self.types[-1]["points"][-1]["holds"].append(clause_in(rest, self.tables, self.names()))

    def read_next(self, rest, line):
        self.step = self.types[-1]["points"][-1][line]

    read_undo = read_next

    def read_path(self, rest, line):
        words, reader = Words(rest), Reader(self.tables, self.names())
        guard = words.listed(lambda: reader.relation(words)) if rest else []
        self.step[1].append((guard, [], []))

    def read_entry(self, rest, line):
        self.entries.append(line)

    def read_in_step(self, rest, line):
        words, reader = Words(line), Reader(self.tables, self.names())
        kind = words.take()
        if kind in ("goto", "commit", "undone", "refuse"):
            self.step[1][-1][2].extend([kind, words.peek()])
        elif kind in ("put", "del", "set", "add"):
            self.step[1][-1][1].append(action_in(kind, words, reader))
        else:
            self.step[0].append(read_in(kind, words, reader))


def action_in(kind, words, reader):
    table, key = reader.row(words)
    if kind == "put":
        values = words.listed(lambda: reader.form(words)) if words.peek() else []
        return kind, table, key, None, values
    if kind == "del":
        return kind, table, key, None, []
    words.take(".")
    column = reader.tables[table][1].index(words.take())
    return kind, table, key, column, [reader.form(words)]


def read_in(kind, words, reader):
    """The local that a read assigns, its kind, and what it reads."""
    local = reader.names.index(words.take())
    if kind == "take":
        return local, kind, None
    words.take("=")
    if kind == "let":
        return local, kind, reader.form(words)
    if kind == "mul":
        return local, kind, (reader.names.index(words.take()), reader.names.index(words.take()))
    if kind == "div":
        return local, kind, (reader.names.index(words.take()), int(words.take()))
    table, key = reader.row(words)
    column = None
    if words.has("."):
        column = reader.tables[table][1].index(words.take())
    return local, kind, (table, key, column)


def signed(numbers):
    return struct.pack(f">{len(numbers)}q", *numbers)


def spelled(event):
    """The bytes of an event, by docs/JOURNAL.md."""
    kind, *rest = event
    if kind == "begin":
        sort, params, tape, ask = rest
        call = struct.pack(">BHB", 1, sort, len(params)) + signed(params)
        return call + struct.pack(">H", len(tape)) + signed(tape) + struct.pack(">I", ask)
    if kind == "turn":
        return struct.pack(">BIBI", 3, *rest)
    return struct.pack(">BI", 2 if kind == "next" else 4, *rest)


def journal(version, text, batches):
    """A journal of that version, of a base text and lists of events."""
    data = struct.pack(">BBI", 0xA5, version, len(text)) + text
    for events in batches:
        body = b"".join(map(spelled, events))
        data += struct.pack(">BI", 0xA5, len(body)) + body
    return data + b"\x00"


# Rows are the columns by table and key.


def under(rows, table, prefix):
    return [key for at, key in rows if at == table and key[: len(prefix)] == prefix]


def key_of(rows, variables, forms):
    return tuple(value_of(rows, variables, form) for form in forms)


def atom_value(rows, variables, atom):
    kind, *rest = atom
    if kind == "variable":
        return variables[rest[0]]
    table, forms, column = rest
    key = key_of(rows, variables, forms)
    if kind == "has":
        return int((table, key) in rows)
    if kind == "column":
        return rows[table, key][column] if (table, key) in rows else 0
    if kind == "count":
        return len(under(rows, table, key))
    return sum(rows[table, each][column] for each in under(rows, table, key))


def value_of(rows, variables, form):
    terms, constant = form
    return sum(number * atom_value(rows, variables, atom) for number, atom in terms) + constant


def is_true(rows, variables, relation):
    form, equal = relation
    value = value_of(rows, variables, form)
    return value == 0 if equal else value <= 0


class Machine:
    """The machine without locks: events one after the other, and what is asserted behind each."""

    def __init__(self, design):
        self.design, self.rows, self.frames, self.events = design, {}, {}, []
        self.count = 0

    def begin(self, name, params, tape, ask=NOT_ASKED):
        """The number of a call that begins; it is asked to turn after so many steps."""
        sort = next(i for i, each in enumerate(self.design.types) if each["name"] == name)
        kind = self.design.types[sort]
        self.count += 1
        values = [*params, *[0] * (len(kind["locals"]) - len(params))]
        self.frames[self.count] = {
            "type": kind, "point": kind["points"][0], "locals": values, "tape": tape, "at": 0, "steps": 0, "ask": ask, "undoing": False,
        }
        self.events.append(("begin", sort, params, tape, ask))
        return self.count

    def stop(self, number, cause, reason=0):
        """A transaction turns."""
        self.frames[number]["undoing"] = True
        self.events.append(("turn", number, cause, reason))

    def after_reads(self, number, frame, reads):
        """The locals and the place on the tape behind the reads."""
        values, at = [*frame["locals"], number], frame["at"]
        for local, kind, what in reads:
            if kind == "take":
                value, at = (frame["tape"][at], at + 1) if at < len(frame["tape"]) else (0, at)
            elif kind == "let":
                value = value_of(self.rows, values, what)
            elif kind == "mul":
                value = values[what[0]] * values[what[1]]
            elif kind == "div":
                value = values[what[0]] // what[1]
            else:
                value = self.read_rows(kind, values, *what)
            values[local] = value
        return values[:-1], at

    def read_rows(self, kind, values, table, forms, column):
        if kind in ("has", "count", "sum", "get"):
            return atom_value(self.rows, values, ("column" if kind == "get" else kind, table, forms, column))
        prefix = key_of(self.rows, values, forms)
        parts = [key[len(prefix)] for key in under(self.rows, table, prefix)]
        return (min(parts) if kind == "least" else max(parts)) if parts else 0

    def act(self, values, action):
        kind, table, forms, column, operands = action
        place = table, key_of(self.rows, values, forms)
        numbers = [value_of(self.rows, values, form) for form in operands]
        if kind == "put":
            self.rows[place] = numbers
        elif kind == "del":
            self.rows.pop(place, None)
        elif place in self.rows:
            self.rows[place] = [*self.rows[place]]
            self.rows[place][column] = numbers[0] + (self.rows[place][column] if kind == "add" else 0)

    def turn(self, number):
        """One turn of an unfinished transaction."""
        frame = self.frames[number]
        if frame["undoing"]:
            self.step(number, frame, "undo")
        elif frame["ask"] == frame["steps"]:
            self.stop(number, ASKED)
        elif frame["steps"] >= frame["type"]["limit"]:
            self.stop(number, LIMIT)
        else:
            self.step(number, frame, "next")

    def step(self, number, frame, side):
        """A step of that side, or a refusal."""
        reads, paths = frame["point"][side]
        values, at = self.after_reads(number, frame, reads)
        variables = [*values, number]
        _, actions, (target, name) = next(path for path in paths if all(is_true(self.rows, variables, each) for each in path[0]))
        if target == "refuse":
            self.stop(number, REFUSED, int(name))
            return
        for action in actions:
            self.act(variables, action)
        frame["locals"], frame["at"], frame["steps"] = values, at, frame["steps"] + 1
        self.events.append((side, number))
        if target == "goto":
            frame["point"] = next(each for each in frame["type"]["points"] if each["name"] == name)
        else:
            del self.frames[number]

    def false_now(self):
        """The transaction, or 0, the number of its clause and the values at which it is false, of the first one; or that there are too many."""
        asserted = [(0, [], self.design.always)]
        asserted += [(t, [*frame["locals"], t], frame["point"]["holds"]) for t, frame in sorted(self.frames.items())]
        for t, variables, clauses in asserted:
            for number, clause in enumerate(clauses, 1):
                found = self.false_at(variables, clause)
                if found is not None:
                    return t, number, found
        return None

    def false_at(self, variables, clause):
        """The first values at which a clause is false, `None` where it is at none, and `large` where there are too many to try."""
        own, guards, relation = clause
        ranges = [self.range_of(variables, clause, len(variables) + at) for at in range(own)]
        tuples = 1
        for values in ranges:
            tuples *= len(values)
        if tuples > MOST_TUPLES:
            return "large"
        for values in itertools.product(*ranges):
            whole = [*variables, *values]
            if all(is_true(self.rows, whole, guard) for guard in guards) and not is_true(self.rows, whole, relation):
                return values
        return None

    def range_of(self, variables, clause, variable):
        """0, the values of the variables outside, and what rows have where the variable stands alone in a key."""
        found = {0, *variables}
        _, guards, relation = clause
        for (terms, _), _ in [*guards, relation]:
            for _, atom in terms:
                if atom[0] != "variable":
                    places = [j for j, form in enumerate(atom[2]) if form == ([(1, ("variable", variable))], 0)]
                    found |= {key[j] for table, key in self.rows if table == atom[1] for j in places}
        return sorted(found)
