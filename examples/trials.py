"""What the trials of the real program share: `crash`, `held` and `terminal`. Each calls `./acc`, compares what comes of it with what should
come, and stops at the first difference."""
import os
import struct
import subprocess

HERE = os.path.dirname(os.path.abspath(__file__))
ACC = os.path.join(HERE, "..", "acc")
DESIGN, CERT, SCRIPT, ORDER = (os.path.join(HERE, f"transfer.{kind}") for kind in ("design", "cert", "script", "order"))
REFUSED = (5, "fault disk\n")


class Differs(Exception):
    """Something isn't as it should be."""


def compare(what, found, wanted):
    if found != wanted:
        raise Differs(f"{what}: {found!r} and not {wanted!r}"[:2000])


def acc(*words, closed=()):
    """The status, standard output and standard error of the program, with these descriptors closed."""
    told = subprocess.run(
        [ACC, *words], stdin=subprocess.DEVNULL, stdout=subprocess.PIPE, stderr=subprocess.PIPE, text=True, check=False,
        preexec_fn=lambda: [os.close(each) for each in closed],
    )
    return told.returncode, told.stdout, told.stderr


def lines_of(*words):
    """The lines that the program prints; it has to end with status 0."""
    status, printed, told = acc(*words)
    compare(f"acc {' '.join(words)}: {printed[-500:]}{told[-500:]}: status", status, 0)
    return printed.split("\n")[:-1]


def compare_refusal(what, journal, found):
    """Who asks for a journal that another process has is refused at once, and told its name and the reason."""
    compare(what, found[:2], REFUSED)
    need_told(what, found[2], journal, "another process")


def need_told(what, told, *parts):
    """Standard error has to say these parts."""
    for part in parts:
        if part not in told:
            raise Differs(f"{what}: standard error doesn't say {part!r}: {told!r}")


def bytes_of(path):
    with open(path, "rb") as file:
        return file.read()


def written(path, data):
    """The path, with these bytes there."""
    with open(path, "wb") as file:
        file.write(data)
    return path


def listed(path, items):
    """The path, with an item a line there."""
    return written(path, ("\n".join(map(str, items)) + "\n").encode())


def events_of(path):
    """The events that the batches of a journal of either version hold which count, each a tuple, by docs/JOURNAL.md."""
    return counted_of(path)[0]


def states_of(path):
    """Its states, each with the number of events before it and its text."""
    events, states = 0, []
    for item in items_of(path)[0]:
        if item[0] == "state":
            states.append((events, item[1]))
        else:
            events += 1
    return states


def counted_of(path):
    """Its events, and the bytes that count, up to the gate behind the last batch."""
    items, counted = items_of(path)
    return [item for item in items if item[0] != "state"], counted


def items_of(path):
    """Its events and states, and the bytes that count."""
    data = bytes_of(path)
    if data[:2] not in (b"\xa5\x01", b"\xa5\x02"):
        raise Differs(f"{path}: no journal")
    at = 6 + struct.unpack(">I", data[2:6])[0]
    found = []
    while data[at] == 0xA5 and at + 1 < len(data):
        size = struct.unpack(">I", data[at + 1 : at + 5])[0]
        body, at = data[at + 5 : at + 5 + size], at + 5 + size
        if len(body) < size or at >= len(data):
            raise Differs(f"{path}: a batch that is cut short counts")
        found += items_in(body)
    return found, data[:at]


def items_in(body):
    """The events and states that a batch's body spells."""
    at = 0
    while at < len(body):
        kind = body[at]
        if kind == 1:
            sort, count = struct.unpack(">HB", body[at + 1 : at + 4])
            at += 4
            values = struct.unpack(f">{count}q", body[at : at + 8 * count])
            at += 8 * count
            tape = struct.unpack(">H", body[at : at + 2])[0]
            at += 2 + 8 * tape + 4
            yield ("begin", sort, values)
        elif kind == 3:
            yield ("turn", *struct.unpack(">IBI", body[at + 1 : at + 10]))
            at += 10
        elif kind == 5:
            size = struct.unpack(">I", body[at + 1 : at + 5])[0]
            yield ("state", body[at + 5 : at + 5 + size])
            at += 5 + size
        else:
            yield ({2: "step", 4: "back"}[kind], struct.unpack(">I", body[at + 1 : at + 5])[0])
            at += 5


def text_of(design, rows):
    """The text that a state has of these rows, each a line of `dump`: how many there are, and of each row its table's place in the design,
    how many numbers its key has, these, how many columns it has, and these."""
    tables = [line.split()[1] for line in bytes_of(design).decode().split("\n") if line.startswith(("table ", "private "))]
    text = struct.pack(">I", len(rows))
    for row in rows:
        name, *key = row.split(" : ")[0].split()
        values = row.split(" : ")[1].split()
        text += struct.pack(f">IB{len(key)}qB", tables.index(name), len(key), *map(int, key), len(values))
        text += b"".join(int(value).to_bytes(16, "big", signed=True) for value in values)
    return text


def check_states(path, design, rows_after):
    """Each state of the journal has to be the text of the rows that a model gives to the events before it. Answers their places."""
    events = events_of(path)
    for place, text in states_of(path):
        compare(f"the state behind {place} events", text, text_of(design, rows_after(events[:place])))
    return [place for place, _ in states_of(path)]
