#!/usr/bin/python3 -B
# Prints the frames of sessions between real HTTP/2 clients and the runner's side of a connection, as in frames.txt.
# Needs the Debian packages python3-h2 (with python3-hyperframe and python3-hpack) and libnghttp2-14. No port is opened.
#
#     ./capture.py | diff frames.txt -        # the check
#
# The clients are real (clients.py); the frames of the runner's side are worked out by hand from RFC 9113, 6.1, 6.4
# and 6.9, and given to the client as they stand here. A client that tells its user anything but what is written beside
# a frame, or sends other frames than those written here, ends the script with status 1.
import subprocess
from functools import partial

from clients import H2, Nghttp2

TYPES = {0: "DATA", 1: "HEADERS", 3: "RST_STREAM", 8: "WINDOW_UPDATE"}
TOP = 2**31 - 1


# The frames that stand one behind the other.
def cut(data):
    while data:
        length = 9 + int.from_bytes(data[:3], "big")
        yield data[:length]
        data = data[length:]


def stream(frame):
    return int.from_bytes(frame[5:9], "big")


def hexes(text):
    return bytes.fromhex(text).hex()


# A client whose connection and two streams, s and s + 2, are opened. This much is the caller's, not the runner's.
class Session:
    def __init__(self, client, s=1, answered=True):
        self.client, self.nghttp2, self.streams, self.lines = client(), client is Nghttp2, [s, s + 2], []
        preface = self.client.sent()
        magic = b"PRI * HTTP/2.0\r\n\r\nSM\r\n\r\n"
        assert preface.startswith(magic)
        settings, = cut(preface[len(magic):])
        assert b"\0\4\0\0\0\0" in [settings[i : i + 6] for i in range(9, len(settings), 6)]  # initial windows of 0
        assert self.client.take(bytes.fromhex("000006 04 00 00000000 0004 00000000")) == []  # the server's alike
        assert self.client.take(bytes.fromhex("000000 04 01 00000000")) == []  # the client's SETTINGS hold from here
        assert self.client.sent().hex() == hexes("000000 04 01 00000000")
        self.client.open(s, False)
        self.client.open(s + 2, True)  # stderr takes no input
        fields = "83 86 41 83 a0e7a7 84"  # POST, http, loom (from then on 62 of the table), /
        self.reads("000008 01 04 %08x %s" % (s, fields), "000004 01 05 %08x 83 86 be 84" % (s + 2))
        for stream in self.streams if answered else []:
            self.writes("000001 01 04 %08x 88" % stream)  # 200
        self.opening, self.lines = self.lines, []

    # The client has sent these frames on the two streams, and no others there.
    def reads(self, *frames):
        got = [frame for frame in cut(self.client.sent()) if stream(frame) in self.streams]
        self.lines += [line("c>s", frame) for frame in got]
        assert [frame.hex() for frame in got] == [hexes(frame) for frame in frames], got

    # The client is given this frame, and tells its user so.
    def writes(self, frame, *told):
        frame = bytes.fromhex(frame)
        got = self.client.take(frame)
        self.lines.append(line("s>c", frame, *got))
        assert got == list(told), got

    # Both windows of 8 bytes are opened: the runner's first Credit, and the client's for stdout and stderr.
    def windows(self):
        s = self.streams[0]
        self.writes("000004 08 00 %08x 00000008" % s, "window %d 8" % s)
        for stream in self.streams:
            self.client.window(stream, 8)
            self.reads("000004 08 00 %08x 00000008" % stream)


def line(way, frame, *told):
    return " ".join([way, TYPES[frame[3]], short(frame.hex()), *(["->", ", ".join(map(short, told))] if told else [])])


def short(text):
    return text if len(text) < 80 else "%s.. (%d digits)" % (text[:26], len(text))


def whole(of):
    """(a) A whole session: input "hi" and "yo", output "ab" and "bad". Terminal writes nothing"""
    a = of()
    a.windows()
    a.client.data(1, b"hi")
    a.client.data(1, b"yo", end=True)
    a.reads("000002 00 00 00000001 6869", "000002 00 01 00000001 796f")
    a.writes("000002 00 00 00000001 6162", "data 1 6162")
    a.writes("000003 00 00 00000003 626164", "data 3 626164")
    a.writes("000000 00 01 00000003", "end 3")
    a.writes("000000 00 01 00000001", "end 1")
    a.reads()
    assert a.client.open_streams() == 0
    return a


def resets(of):
    """(b) The client resets stream 3 while stdout and stderr are open. Terminal resets both streams, 3 too"""
    a = of()
    a.windows()
    a.client.reset(3)
    a.reads("000004 03 00 00000003 00000008")
    a.writes("000004 03 00 00000001 00000008", "reset 1 8")
    a.writes("000004 03 00 00000003 00000008", *(["reset 3 8"] if a.nghttp2 else []))
    a.reads()
    assert a.client.open_streams() == 0
    return a


def crossing(of):
    """(b) The client resets both streams, which credit and output cross. Terminal resets both"""
    a = of()
    a.windows()
    a.client.data(1, b"hi")
    a.client.reset(1)
    a.client.reset(3)
    a.reads("000002 00 00 00000001 6869", *("000004 03 00 %08x 00000008" % stream for stream in (1, 3)))
    a.writes("000004 08 00 00000001 00000002")
    a.reads()
    a.writes("000002 00 00 00000001 6162")
    a.reads(*([] if a.nghttp2 else ["000004 03 00 00000001 00000005"]))
    a.writes("000003 00 00 00000003 626164")
    a.reads(*([] if a.nghttp2 else ["000004 03 00 00000003 00000005"]))
    for stream in 1, 3:
        a.writes("000004 03 00 %08x 00000008" % stream, *(["reset %d 8" % stream] if a.nghttp2 else []))
    a.reads()
    assert a.client.open_streams() == 0
    return a


def ended(of):
    """(c) Stdout has ended; the client resets stream 3. Terminal resets 3; stream 1 is open until the client ends it"""
    a = of()
    a.windows()
    a.writes("000000 00 01 00000001", "end 1")
    a.client.reset(3)
    a.reads("000004 03 00 00000003 00000008")
    a.writes("000004 03 00 00000003 00000008", *(["reset 3 8"] if a.nghttp2 else []))
    assert a.client.open_streams() == 1
    a.client.data(1, b"", end=True)
    a.reads("000000 00 01 00000001")
    assert a.client.open_streams() == 0
    return a


def goes_on(of):
    """(c) Stdout has ended; input and the credit for it go on. Terminal writes nothing"""
    a = of()
    a.windows()
    a.writes("000000 00 01 00000001", "end 1")
    a.client.data(1, b"hi")
    a.reads("000002 00 00 00000001 6869")
    a.writes("000004 08 00 00000001 00000002", "window 1 2")
    a.client.data(1, b"12345678", end=True)
    a.reads("000008 00 01 00000001 3132333435363738")
    a.writes("000000 00 01 00000003", "end 3")
    a.reads()
    assert a.client.open_streams() == 0
    return a


def empty(of):
    """(d) An end of the input without bytes; then the Ends, stdout's first"""
    a = of()
    a.windows()
    a.client.data(1, b"", end=True)
    a.reads("000000 00 01 00000001")
    a.writes("000000 00 01 00000001", "end 1")
    a.writes("000000 00 01 00000003", "end 3")
    a.reads()
    assert a.client.open_streams() == 0
    return a


def padded(of):
    """(d) Input with 3 bytes of padding, with 0 (44, both), of no bytes (4), with padding and an end (44)"""
    a = of()
    a.writes("000004 08 00 00000001 00000010", "window 1 16")
    a.client.data(1, b"hi", pad=3)
    a.reads("000006 00 08 00000001 03 6869 000000")
    a.client.data(1, b"hi", pad=0)
    a.reads("000003 00 08 00000001 00 6869")
    a.client.data(1, b"")
    a.reads("000000 00 00 00000001")
    a.client.data(1, b"yo", end=True, pad=1)
    a.reads("000004 00 09 00000001 01 796f 00")
    return a


def windows(of):
    """(e) Windows of 2^31 - 1 from 0, each way"""
    a = of()
    a.writes("000004 08 00 00000001 7fffffff", "window 1 2147483647")
    for stream in 1, 3:
        a.client.window(stream, TOP)
        a.reads("000004 08 00 %08x 7fffffff" % stream)
    a.writes("000002 00 00 00000001 6162", "data 1 6162")
    a.writes("000003 00 00 00000003 626164", "data 3 626164")
    a.reads()
    return a


def streams(of):
    """(e) The last streams, s = 2^31 - 3; the client resets stderr's"""
    a = of(TOP - 2)
    a.windows()
    a.client.data(TOP - 2, b"hi", end=True)
    a.reads("000002 00 01 7ffffffd 6869")
    a.writes("000002 00 00 7ffffffd 6162", "data 2147483645 6162")
    a.writes("000003 00 00 7fffffff 626164", "data 2147483647 626164")
    a.client.reset(TOP)
    a.reads("000004 03 00 7fffffff 00000008")
    a.writes("000004 03 00 7ffffffd 00000008", "reset 2147483645 8")
    a.writes("000004 03 00 7fffffff 00000008", *(["reset 2147483647 8"] if a.nghttp2 else []))
    a.reads()
    assert a.client.open_streams() == 0
    return a


def longest(of):
    """(e) Output of 16,384 bytes, the largest chunk"""
    a = of()
    a.client.window(1, 16384)
    a.reads("000004 08 00 00000001 00004000")
    a.writes("004000 00 00 00000001" + "61" * 16384, "data 1 " + "61" * 16384)
    a.reads()
    return a


# What no runner or caller does, to see that the clients look.


def early(of):
    """Not a caller's: the server's HEADERS are not out yet. Credit is taken, output breaks the connection"""
    a = of(answered=False)
    a.client.window(1, 8)
    a.reads("000004 08 00 00000001 00000008")
    a.writes("000004 08 00 00000001 00000008", "window 1 8")
    a.writes("000002 00 00 00000001 6162", "broken 1")
    return a


def over(of):
    """Not a runner's: a window above 2^31 - 1"""
    a = of()
    a.writes("000004 08 00 00000001 7fffffff", "window 1 2147483647")
    a.writes("000004 08 00 00000001 00000001", "refused 1 3")
    a.reads("000004 03 00 00000001 00000003")
    return a


def above(of):
    """Not a runner's: 9 bytes for a window of 8"""
    a = of()
    a.windows()
    told = ["data 1 " + "61" * 9, "refused 1 3"] if a.nghttp2 else ["broken 3"]
    a.writes("000009 00 00 00000001" + "61" * 9, *told)
    a.reads(*(["000004 03 00 00000001 00000003"] if a.nghttp2 else []))
    return a


def longer(of):
    """Not a runner's: output of 16,385 bytes"""
    a = of()
    a.client.window(1, 16385)
    a.reads("000004 08 00 00000001 00004001")
    a.writes("004001 00 00 00000001" + "61" * 16385, "broken 6")
    return a


def reserved(of):
    """Not a runner's: reserved bits that are set, of the stream and of the units"""
    a = of()
    a.writes("000004 08 00 80000001 00000008", "window 1 8")
    a.writes("000004 08 00 00000001 80000008", *(["window 1 8"] if a.nghttp2 else ["broken 1"]))
    return a


SESSIONS = [whole, resets, crossing, ended, goes_on, empty, padded, windows, streams, longest]
SESSIONS += [early, over, above, longer, reserved]
PACKAGES = ["python3-h2", "python3-hyperframe", "libnghttp2-14"]


def main():
    versions = subprocess.check_output(["dpkg-query", "-W", "-f", "${Package} ${Version}, ", *PACKAGES], text=True)
    print(HEAD % versions.rstrip(", "))
    openings = [Session(client).opening for client in (H2, Nghttp2)]
    assert openings[0] == openings[1]
    print("\n# How each session begins: the caller's\n%s" % "\n".join(openings[0]))
    for session in SESSIONS:
        lines, others = [session(partial(Session, client)).lines for client in (H2, Nghttp2)]
        print("\n# %s%s\n%s" % (session.__doc__, "" if lines == others else ": h2", "\n".join(lines)))
        if lines != others:
            print("# The same: nghttp2\n%s" % "\n".join(others))


HEAD = """\
# Frames of sessions with real HTTP/2 clients, printed by capture.py. One a line: direction (c>s from the client to the
# runner's side, s>c back), type, bytes in hexadecimal, and behind -> what the client told its user. Of what a client
# sent, only the frames on the runner's two streams are here: 1 and 3 (s is 1), unless another s is named. HEADERS are
# outside of the frames that the runner reads (refused by 43) or writes. What goes to the client was worked out by hand
# from RFC 9113. Where nothing else is said, h2's client and nghttp2's sent the same bytes and told the same.
# clients: %s"""

if __name__ == "__main__":
    main()
