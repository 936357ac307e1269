#!/usr/bin/python3 -B
# Holds the layout of the runner's frames, as the model below says it, to hyperframe's: what is written, byte for byte,
# and what is read of random frames, most of them damaged. Needs the Debian package python3-hyperframe.
#
#     ./layout.py [SEED [COUNT]]
import random
import sys
from collections import Counter

from hyperframe.exceptions import HyperframeError, InvalidDataError
from hyperframe.frame import DataFrame, Frame, RstStreamFrame, WindowUpdateFrame

TOP = 2**31 - 1

# The model. A frame is ("update", stream, units), ("data", stream, bytes, end) or ("reset", stream).


def head(length, kind, flags, stream):
    return length.to_bytes(3, "big") + bytes([kind, flags]) + stream.to_bytes(4, "big")


def write(kind, stream, *what):
    if kind == "data":
        data, end = what
        return head(len(data), 0, int(end), stream) + data
    number, word = (8, what[0]) if kind == "update" else (3, 8)  # every reset is CANCEL
    return head(4, number, 0, stream) + word.to_bytes(4, "big")


# What reaches a runner whose streams are s and s + 2, or the number that refuses it.
def read(frame, s):
    if len(frame) < 9:
        return 43
    length, kind, flags = int.from_bytes(frame[:3], "big"), frame[3], frame[4]
    stream, data = int.from_bytes(frame[5:9], "big") & TOP, frame[9:]
    if length != len(data) or kind not in (0, 3, 8) or (kind != 0 and length != 4):
        return 43
    if stream not in (s, s + 2) or (kind == 0 and stream != s):
        return 43
    if kind == 0:
        return 44 if flags & 8 else ("data", stream, data, flags & 1 == 1)
    return ("reset", stream) if kind == 3 else ("update", stream, int.from_bytes(data, "big") & TOP)


# The same by hyperframe.


def their_write(kind, stream, *what):
    if kind == "data":
        return DataFrame(stream, what[0], flags=["END_STREAM"] if what[1] else []).serialize()
    return (WindowUpdateFrame(stream, what[0]) if kind == "update" else RstStreamFrame(stream, 8)).serialize()


def their_read(frame, s):
    try:
        got, length = Frame.parse_frame_header(memoryview(frame)[:9])
        if length != len(frame) - 9 or not isinstance(got, (DataFrame, RstStreamFrame, WindowUpdateFrame)):
            return 43
        if got.stream_id not in ([s] if isinstance(got, DataFrame) else [s, s + 2]):
            return 43
        if "PADDED" in got.flags:
            return 44
        got.parse_body(memoryview(frame)[9:])
    except HyperframeError as error:
        # hyperframe refuses units of 0, where the runner's credit says 3, and units whose reserved bit is set.
        return "units" if isinstance(error, InvalidDataError) and frame[3] == 8 else 43
    if isinstance(got, DataFrame):
        return ("data", got.stream_id, got.data, "END_STREAM" in got.flags)
    if isinstance(got, RstStreamFrame):
        return ("reset", got.stream_id)
    return ("update", got.stream_id, got.window_increment)


def some_frame(r, s):
    kind, stream = r.choice(["update", "data", "data", "reset"]), r.choice([s, s + 2])
    if kind == "update":
        return kind, stream, r.choice([1, 8, TOP, r.randint(1, TOP)])
    if kind == "data":
        length = r.choice([0, 0, 1, r.randint(0, 20), 255, 256, 16384, 65536])
        return kind, stream, r.randbytes(length), r.random() < 0.5
    return kind, stream


# A frame that is mostly one of the runner's but for a fault or two.
def some_bytes(r, s):
    odd = lambda usual, *others: r.choice(others) if r.random() < 0.12 else usual
    kind = odd(r.choice([0, 3, 8]), r.randint(0, 255), r.randint(0, 10))
    data = r.randbytes(odd(r.randint(0, 20) if kind == 0 else 4, 0, 3, 5))
    if kind == 8 and len(data) == 4:
        data = odd((int.from_bytes(data, "big") & TOP).to_bytes(4, "big"), bytes(4), bytes([data[0] | 128]) + data[1:])
    flags = odd(r.choice([0, 1] if kind == 0 else [0]), 8, 9, r.randint(0, 255))
    stream = odd(s if kind == 0 else r.choice([s, s + 2]), 0, s + 1, s + 2, r.randint(0, TOP)) | odd(0, 2**31)
    frame = head(odd(len(data), len(data) + 1, max(len(data), 1) - 1, len(data) + 65536), kind, flags, stream) + data
    return frame[: odd(len(frame), r.randint(0, len(frame)))]


def main():
    seed, count = (list(map(int, sys.argv[1:])) + [1, 20000][len(sys.argv) - 1 :])[:2]
    r, told = random.Random(seed), Counter()
    for _ in range(count):
        s = r.choice([1, TOP - 2, r.randint(1, TOP - 2)])
        frame = some_frame(r, s)
        wrote = write(*frame)
        assert wrote == their_write(*frame), frame
        assert read(wrote, s) == (43 if frame[0] == "data" and frame[1] != s else frame), frame
        data = some_bytes(r, s)
        mine, theirs = read(data, s), their_read(data, s)
        if theirs == "units":
            told["units refused by hyperframe"] += 1
            theirs = their_read(data[:9] + bytes([data[9] & 127]) + data[10:], s)  # without the reserved bit
            theirs = ("update", mine[1], 0) if theirs == "units" else theirs
        else:
            told[mine if isinstance(mine, int) else mine[0]] += 1
        assert mine == theirs, (data.hex(), s, mine, theirs)
    counts = ", ".join("%s %d" % (key, told[key]) for key in sorted(told, key=str))
    print("%d frames written alike; read alike: %s" % (count, counts))


if __name__ == "__main__":
    main()
