#!/usr/bin/python3 -B
# Prints lists of what a runner is given and says, as one log.
#
#     ./lists.py SEED COUNT     # random lists, one for each seed from SEED on; that of a seed is the same wherever it stands
#     ./lists.py short          # all lists of up to four items of fourteen kinds, in six tiny limits
import sys
from itertools import product
from random import Random

TOP32, TOP64 = 2**32 - 1, 2**64 - 1
STREAMS = ("Stdout", "Stderr")
POOLS = ("Input", "Output", "Stdout", "Stderr")

# How often the kinds are drawn for a list that goes on.
KEEPING = {"credit": 6, "input": 4, "Credit": 4, "Output": 8, "Started": 1, "InputClosed": 0.3, "End": 0.4, "Terminal": 0.1}
ERRING = {"order": 3, "length": 2, "cost": 3, "charge": 2, "units": 3, "credit": 2, "wild": 4, "bad": 0.8}


def pick(r, weights):
    return r.choices(list(weights), weights.values())[0]


# A number from low to high, often one of the two or beside it.
def between(r, low, high):
    return r.choice([low, high, min(low + 1, high), max(high - 1, low), r.randint(low, high), r.randint(low, high)])


# A chunk or the size of a window.
def size(r):
    return r.randint(1, 8) if r.random() < 0.85 else r.choice([r.randint(9, 99), 16384, 2**31, TOP32 - 1, TOP32])


# Any number up to the top of its type, with the edges that are dear to it.
def any_number(r, top):
    return r.choice([0, 1, 2, r.randint(0, 12), r.randint(0, 12), TOP32, TOP32 - 1, min(2**32, top), top, r.randint(0, top)])


# A rough model of a list that keeps the rules, which says what may come next and what may not.
class Model:
    def __init__(self, r):
        self.r = r
        self.chunk, self.shared = size(r), r.randint(0, 1)
        self.into, self.out = (r.choice("BF"), size(r)), (r.choice("BF"), size(r))
        self.left = {"Output": 0} if self.shared else {"Stdout": 0, "Stderr": 0}
        self.input = 0
        self.said, self.ended = set(), set()

    def limits(self):
        return ("limits", self.chunk, *self.into, *self.out, self.shared)

    def pool_of(self, stream):
        return "Output" if self.shared else stream

    # The longest that the window and what is left of it allow.
    def longest(self, unit, left, top):
        return min(left, top) if unit == "B" else (top if left > 0 else 0)

    # An item of the kind that keeps the rules, or nothing.
    def keeping(self, kind):
        r, over = self.r, "Terminal" in self.said
        if kind == "credit":
            pool = r.choice(POOLS) if r.random() < 0.15 else r.choice(list(self.left))
            room = self.out[1] - self.left[pool] if pool in self.left else TOP32
            return ("credit", pool, between(r, 0, room))
        if kind == "input":
            longest = self.longest(self.into[0], self.input, TOP64)
            possible = self.into[0] == "B" or self.input > 0
            return ("input", between(r, 0, longest)) if possible else None
        if kind == "Credit":
            room = self.into[1] - self.input
            return ("Credit", between(r, 1, room)) if room and not over and "InputClosed" not in self.said else None
        if kind == "Output":
            stream = r.choice(STREAMS)
            longest = self.longest(self.out[0], self.left[self.pool_of(stream)], self.chunk)
            return (stream, between(r, 1, longest)) if longest and not over and stream not in self.ended else None
        if kind == "End":
            stream = r.choice(STREAMS)
            return ("End", stream) if not over and stream not in self.ended else None
        late = kind in self.said or kind == "Started" and self.said & {"Output", "End"}
        return None if over or late else (kind,)

    # An item that is to break a rule, or nothing.
    def erring(self, fault):
        r, stream = self.r, self.r.choice(STREAMS)
        if fault == "order":
            broken = [(kind,) for kind in ("Started", "InputClosed", "Terminal") if not self.keeping(kind)]
            over = [stream for stream in STREAMS if stream in self.ended]
            broken += [message for stream in over for message in (("End", stream), (stream, between(r, 0, self.chunk)))]
            broken += [("Credit", between(r, 0, 9))] if self.said & {"InputClosed", "Terminal"} else []
            broken += [("End", stream), (stream, between(r, 0, self.chunk))] if "Terminal" in self.said else []
            return r.choice(broken) if broken else None
        if fault == "length":
            return (stream, r.choice([0, 0, self.chunk + 1, self.chunk + 2, 2**32, 2**32 + 1, TOP64]))
        if fault == "cost":
            least = self.left[self.pool_of(stream)] + 1 if self.out[0] == "B" else 1
            possible = least <= self.chunk and (self.out[0] == "B" or not self.left[self.pool_of(stream)])
            return (stream, between(r, least, self.chunk)) if possible else None
        if fault == "charge":
            most = r.choice([self.input + 1, self.input + 2, 2**32, TOP64])
            return ("input", most if self.into[0] == "B" else any_number(r, TOP64))
        if fault == "units":
            return ("Credit", r.choice([0, min(self.into[1] - self.input + r.choice([1, 1, 2]), TOP32), TOP32]))
        if fault == "credit":
            pool = r.choice(list(self.left))
            return ("credit", pool, r.choice([min(self.out[1] - self.left[pool] + r.choice([1, 1, 2]), TOP32), TOP32]))
        return self.wild()

    # Any item.
    def wild(self):
        r, stream = self.r, self.r.choice(STREAMS)
        units, length = any_number(r, TOP32), any_number(r, TOP64)
        return r.choice([
            ("credit", r.choice(POOLS), units), ("input", length), ("Credit", units), (stream, length), ("End", stream),
            ("Started",), ("InputClosed",), ("Terminal",),
        ])  # fmt: skip

    # Takes note of an item that keeps the rules; of another, roughly.
    def note(self, item):
        kind, last = item[0], item[-1]
        if kind == "credit" and item[1] in self.left:
            self.left[item[1]] = min(self.left[item[1]] + last, self.out[1])
        elif kind == "Credit":
            self.input = min(self.input + last, self.into[1])
        elif kind == "input":
            self.input = max(self.input - (last if self.into[0] == "B" else 1), 0)
        elif kind in STREAMS:
            pool = self.pool_of(kind)
            self.left[pool] = max(self.left[pool] - (last if self.out[0] == "B" else 1), 0)
        elif kind == "End":
            self.ended.add(last)
        self.said.add("Output" if kind in STREAMS else kind)


# The item as a line, with zeros in front of a number now and then.
def line_of(r, item):
    def field(what):
        zeros = "0" * r.choice([1, 2, 30]) if r.random() < 0.01 and isinstance(what, int) else ""
        return zeros + str(what)

    return ",".join([item[0]] + [field(what) for what in item[1:]]).encode()


# Numbers past their types, and what else is put in a field's place.
PAST = [b"4294967296", b"4294967297", b"18446744073709551616", b"18446744073709551617", b"9" * 25]
FAULTS = [b"", b"-", b"-1", b"+1", b" 1", b"1.0", b"0x1", b"1e3", b"1_0", b"\xb2", b"b", b"f", b"2", b"stdout", b"Output", b"Input", b"Notes"]


# The line with a fault in it, which may leave it good; it never becomes or loses the word `limits`.
def spoiled(r, line):
    word, *fields = line.split(b",")
    if r.random() < 0.3 and word != b"limits":
        return r.choice([b"", b",", b" ", word.swapcase() + line[len(word) :], b" " + line, b"\xff", b"\0", b"Notes,1", word[:-1]])
    if not fields or r.random() < 0.2:
        return line + r.choice([b",", b",0", b" ", b"\r", b"\0", b",-"])
    at = r.randrange(len(fields))
    fault = r.choice(r.choice([PAST, FAULTS, FAULTS + [fields[at] + b"x"]]))
    fields[at : at + 1] = r.choice([[fault], [fault], [fault], [], [fields[at], b"1"]])
    return b",".join([word] + (fields or [b""]))


# The next item: one that is to break a rule if it errs; None stands for a bad line.
def next_item(model, errs):
    while True:
        if model.r.random() < errs:
            fault = pick(model.r, ERRING)
            item = None if fault == "bad" else model.erring(fault)
            if item or fault == "bad":
                return item
        else:
            item = model.keeping(pick(model.r, KEEPING))
            if item:
                return item


# The lines of the limits, some bad and some with a 0.
def limits_line(r, model):
    fields, draw = list(model.limits()), r.random()
    if draw < 0.02:
        fields[r.choice([1, 3, 5])] = 0
    line = line_of(r, fields)
    return spoiled(r, line) if 0.015 < draw < 0.035 else line


def random_list(seed):
    r = Random(seed)
    model = Model(r)
    lines = [limits_line(r, model)]
    length, errs = r.randint(0, r.choice([6, 20, 20, 60, 60, 120])), r.choice([0, 0.02, 0.1, 0.3, 0.5])
    calm = r.choice([0, r.randint(0, length), r.randint(0, length)])  # so many items keep the rules
    for at in range(length):
        item = next_item(model, errs if at >= calm else 0)
        if item:
            model.note(item)
            lines.append(line_of(r, item))
        else:
            lines.append(spoiled(r, line_of(r, model.wild())))
    return lines


TINY = ("1,B,1,B,1,0", "1,B,1,B,1,1", "2,F,1,F,1,0", "2,B,2,B,2,1", "2,F,1,B,2,0", "2,B,1,F,2,1")
KINDS = (
    "credit,Stdout,1", "credit,Output,1", "input,0", "input,1", "Credit,0", "Credit,1", "Started", "Stdout,1", "Stdout,2", "Stderr,1",
    "End,Stdout", "End,Stderr", "InputClosed", "Terminal",
)  # fmt: skip


def short_lists():
    for limits in TINY:
        for length in range(5):
            for items in product(KINDS, repeat=length):
                yield [line.encode() for line in ("limits," + limits, *items)]


def main():
    if sys.argv[1:] == ["short"]:
        lists = short_lists()
    else:
        seed, count = map(int, sys.argv[1:])
        lists = map(random_list, range(seed, seed + count))
    for lines in lists:
        sys.stdout.buffer.write(b"".join(line + b"\n" for line in lines))


if __name__ == "__main__":
    main()
