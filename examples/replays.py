"""What the measures of journals share: `bench-follow` and `bench-states`. Each writes journals of transfers between accounts of one bank by
docs/JOURNAL.md, calls `./acc`, and tells the least wall time of some runs."""
import struct
import subprocess
import sys
import time

from trials import ACC, DESIGN, text_of

EVENTS_OF_FUND, EVENTS_OF_TRANSFER = 2, 3  # a transfer begins and steps twice
BALANCE = 1000
RUNS = 3


def begin(kind, *values):
    return b"\x01" + struct.pack(f">HB{len(values)}q", kind, len(values), *values) + b"\x00\x00" + b"\xff" * 4


def step(number):
    return b"\x02" + struct.pack(">I", number)


def state(accounts):
    """A state behind whole rounds, in which each account gave 1 to the next, so that all have what they began with."""
    rows = [f"BANK 1 : {accounts * BALANCE}", *(f"ACC 1 {account} : {BALANCE}" for account in range(1, accounts + 1))]
    text = text_of(DESIGN, rows)
    return b"\x05" + struct.pack(">I", len(text)) + text


def batch(body):
    return b"\xa5" + struct.pack(">I", len(body)) + body


def transfers_in(events, accounts):
    """How many transfers are among so many events, behind the opening of the accounts."""
    return (events - EVENTS_OF_FUND * accounts) // EVENTS_OF_TRANSFER


def batches(accounts, transfers, states):
    """A batch for each account that is opened, one for each transfer, and so many states, as evenly as whole rounds allow."""
    for account in range(1, accounts + 1):
        yield batch(begin(0, 1, account, BALANCE) + step(account))
    rounds = transfers // accounts
    sealed = {rounds * (at + 1) // states * accounts for at in range(states)}
    text = batch(state(accounts)) if states else b""
    for at in range(transfers):
        if at in sealed:
            yield text
        number = accounts + 1 + at
        yield batch(begin(1, 1, 1 + at % accounts, 1 + (at + 1) % accounts, 1) + step(number) + step(number))
    if transfers in sealed:
        yield text


def journal(base, accounts, transfers, states=0):
    """A journal of the base text with these transfers, of version 1 where it has no states."""
    head = b"\xa5" + (b"\x02" if states else b"\x01") + struct.pack(">I", len(base)) + base
    return head + b"".join(batches(accounts, transfers, states)) + b"\x00"


def base_text():
    """The base text of a journal of transfers. What `./acc` has to build is built then."""
    return subprocess.run([ACC, "print", DESIGN], stdout=subprocess.PIPE, check=True).stdout


def timed(*words):
    begun = time.monotonic()
    told = subprocess.run([ACC, *words], stdin=subprocess.DEVNULL, stdout=subprocess.PIPE, stderr=subprocess.PIPE, check=False)
    seconds = time.monotonic() - begun
    if told.returncode:
        sys.exit(f"acc {' '.join(words)} ended with status {told.returncode}: {told.stdout.decode()}{told.stderr.decode()}")
    return seconds


def least(prepare, *words):
    """The least wall time of some runs, each behind a preparation that isn't measured."""
    times = []
    for _ in range(RUNS):
        prepare()
        times.append(timed(*words))
    return min(times)
