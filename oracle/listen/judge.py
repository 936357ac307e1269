#!/usr/bin/python3 -B
# A second judge of what a runner is given and says, written from the sentences of A8 and from nothing else. Each sentence is asked of the
# whole list so far, and nothing is carried from one item to the next: slow, and shaped like no judge that reads a list once.
#
#     ./judge.py <LOG
import sys
from dataclasses import dataclass

STREAMS = (b"Stdout", b"Stderr")
POOLS = (b"Input", b"Output", b"Stdout", b"Stderr")


@dataclass
class Window:
    unit: bytes
    size: int

    def cost(self, length):
        return length if self.unit == b"B" else 1


@dataclass
class Limits:
    chunk: int
    input: Window
    output: Window
    shared: bool

    # The pools that there are, each with the streams that draw on it.
    def pools(self):
        return {b"Output": STREAMS} if self.shared else {stream: (stream,) for stream in STREAMS}


# The items of a list. Granted is a credit answered Applied, Input an input answered Applied.


@dataclass
class Granted:
    pool: bytes
    units: int


@dataclass
class Input:
    length: int


@dataclass
class Credit:
    units: int


@dataclass
class Started:
    pass


@dataclass
class Output:
    stream: bytes
    length: int


@dataclass
class End:
    stream: bytes


@dataclass
class InputClosed:
    pass


@dataclass
class Terminal:
    pass


MESSAGES = (Credit, Started, Output, End, InputClosed, Terminal)


# Those of the items that are of these kinds.
def among(items, *kinds):
    return [item for item in items if isinstance(item, kinds)]


# The items behind the first one of these kinds.
def behind(items, *kinds):
    places = [place for place, item in enumerate(items) if isinstance(item, kinds)]
    return items[places[0] + 1 :] if places else []


# Order: 45.


# At most one Started, after no Output or End.
def started_in_order(items):
    return len(among(items, Started)) <= 1 and not among(behind(items, Output, End), Started)


# At most one InputClosed, with no Credit after it.
def input_in_order(items):
    return len(among(items, InputClosed)) <= 1 and not among(behind(items, InputClosed), Credit)


# At most one End a stream, with no Output of it later.
def stream_in_order(items, stream):
    of_it = [item for item in among(items, Output, End) if item.stream == stream]
    return len(among(of_it, End)) <= 1 and not among(behind(of_it, End), Output)


# No message after Terminal.
def ends_with_terminal(items):
    return not among(behind(items, Terminal), *MESSAGES)


def in_order(limits, items):
    streams = all(stream_in_order(items, stream) for stream in STREAMS)
    return started_in_order(items) and input_in_order(items) and streams and ends_with_terminal(items)


# Length: 4. Output lengths from 1 to chunk.
def of_good_length(limits, items):
    return all(1 <= output.length <= limits.chunk for output in among(items, Output))


# What is left of the credit on each pool that there is.
def credit_left(limits, items):
    def granted(pool):
        return sum(credit.units for credit in among(items, Granted) if credit.pool == pool)

    def spent(streams):
        return sum(limits.output.cost(output.length) for output in among(items, Output) if output.stream in streams)

    return [granted(pool) - spent(streams) for pool, streams in limits.pools().items()]


# What the input's charges leave of the units of Credit.
def input_left(limits, items):
    units = sum(credit.units for credit in among(items, Credit))
    return units - sum(limits.input.cost(input.length) for input in among(items, Input))


# Costs and charges: 5. Costs within credit, input charges within the units of Credit.
def paid(limits, items):
    return all(left >= 0 for left in credit_left(limits, items)) and input_left(limits, items) >= 0


# Units and windows: 3. Credit left at most its window, Credit units at least 1, and what is left of them at most the window.
def within_windows(limits, items):
    output = all(left <= limits.output.size for left in credit_left(limits, items))
    units = all(credit.units >= 1 for credit in among(items, Credit))
    return output and units and input_left(limits, items) <= limits.input.size


RULES = ((45, in_order), (4, of_good_length), (5, paid), (3, within_windows))


# The number that refuses the last item, if those before it keep the rules.
def refusal(limits, items):
    broken = [number for number, keeps in RULES if not keeps(limits, items)]
    return broken[0] if broken else None


# The lines of a log.

LONGEST = 255


class BadLine(Exception):
    pass


def fields(line):
    if len(line) > LONGEST:
        raise BadLine
    return line.split(b",")


# Digits alone, with any zeros in front, of at most so many bits.
def number(field, bits):
    digits = field.lstrip(b"0")
    if not field.isdigit() or len(digits) > 20 or int(digits or b"0") >= 2**bits:
        raise BadLine
    return int(digits or b"0")


def one_of(words, field):
    if field not in words:
        raise BadLine
    return field


def window(unit, size):
    return Window(one_of((b"B", b"F"), unit), number(size, 32))


def limits_of(line):
    match fields(line):
        case [b"limits", chunk, unit_in, size_in, unit_out, size_out, shared]:
            into, out = window(unit_in, size_in), window(unit_out, size_out)
            return Limits(number(chunk, 32), into, out, one_of((b"0", b"1"), shared) == b"1")
    raise BadLine


def item_of(line):
    match fields(line):
        case [b"credit", pool, units]:
            return Granted(one_of(POOLS, pool), number(units, 32))
        case [b"input", length]:
            return Input(number(length, 64))
        case [b"Credit", units]:
            return Credit(number(units, 32))
        case [b"Started"]:
            return Started()
        case [b"Stdout" | b"Stderr" as stream, length]:
            return Output(stream, number(length, 64))
        case [b"End", stream]:
            return End(one_of(STREAMS, stream))
        case [b"InputClosed"]:
            return InputClosed()
        case [b"Terminal"]:
            return Terminal()
    raise BadLine


# What is printed of a list, by its lines, the limits first.
def verdict(lines):
    place, items = 0, []
    try:
        limits = limits_of(lines[0])
        if 0 in (limits.chunk, limits.input.size, limits.output.size):
            return "refused,10,0"
        for place, line in enumerate(lines[1:], 1):
            items.append(item_of(line))
            by = refusal(limits, items)
            if by:
                return "refused,%d,%d" % (by, place)
    except BadLine:
        return "refused,30,%d" % place
    return "accepted,%d" % len(items)


# Whether a line begins a list: one that is too long does not.
def begins(line):
    return line.split(b",")[0] == b"limits" and len(line) <= LONGEST


# The lists of a log. Each begins with a line `limits`, the first with whatever line is first.
def lists(log):
    lines = []
    for line in log:
        line = line.removesuffix(b"\n")
        if lines and begins(line):
            yield lines
            lines = []
        lines.append(line)
    if lines:
        yield lines


# (A log with no line at all is refused, as a list without limits.)
def main():
    for line in [verdict(lines) for lines in lists(sys.stdin.buffer)] or ["refused,30,0"]:
        print(line)


if __name__ == "__main__":
    main()
