# Two real HTTP/2 clients behind one face, h2's and nghttp2's. Neither has a socket: what they send and what they
# are given is bytes. take answers what the client tells its user, a text each: "window STREAM UNITS",
# "data STREAM BYTES", "end STREAM", "reset STREAM CODE" (by the peer), "refused STREAM CODE" (by the client itself,
# of one stream) and "broken CODE" (the connection).
import ctypes as c

from h2.config import H2Configuration
from h2.connection import H2Connection
from h2.events import DataReceived, StreamEnded, StreamReset, WindowUpdated
from h2.exceptions import ProtocolError
from h2.settings import SettingCodes, Settings

REQUEST = [(":method", "POST"), (":scheme", "http"), (":authority", "loom"), (":path", "/")]
CANCEL = 8


class H2:
    def __init__(self):
        self.h2 = H2Connection(H2Configuration(client_side=True))
        self.h2.local_settings = Settings(initial_values={SettingCodes.INITIAL_WINDOW_SIZE: 0})
        self.h2.initiate_connection()

    def open(self, stream, end):
        self.h2.send_headers(stream, REQUEST, end_stream=end)

    def window(self, stream, units):
        self.h2.increment_flow_control_window(units, stream)

    def data(self, stream, data, end=False, pad=None):
        self.h2.send_data(stream, data, end_stream=end, pad_length=pad)

    def reset(self, stream):
        self.h2.reset_stream(stream, CANCEL)

    def take(self, data):
        try:
            return [text for event in self.h2.receive_data(data) for text in self.told(event)]
        except ProtocolError as error:
            return ["broken %d" % error.error_code]

    def told(self, event):
        if isinstance(event, WindowUpdated):
            yield "window %d %d" % (event.stream_id, event.delta)
        elif isinstance(event, DataReceived) and event.data:
            yield "data %d %s" % (event.stream_id, event.data.hex())
        elif isinstance(event, StreamEnded):
            yield "end %d" % event.stream_id
        elif isinstance(event, StreamReset):
            yield "%s %d %d" % ("reset" if event.remote_reset else "refused", event.stream_id, event.error_code)

    def sent(self):
        return self.h2.data_to_send()

    def open_streams(self):
        return self.h2.open_outbound_streams


# By ctypes, as nghttp2.h of 1.52 has it. Of a frame only its header is told, and the u32 behind it, where a
# WINDOW_UPDATE has its increment and an RST_STREAM its code.
lib = c.CDLL("libnghttp2.so.14")
DATA, RST_STREAM, GOAWAY, WINDOW_UPDATE = 0, 3, 7, 8
END_STREAM = 1  # also NGHTTP2_DATA_FLAG_EOF


class Frame(c.Structure):
    _fields_ = [("length", c.c_size_t), ("stream", c.c_int32), ("type", c.c_uint8), ("flags", c.c_uint8),
                ("reserved", c.c_uint8), ("word", c.c_uint32)]


class GoAway(c.Structure):
    _fields_ = [("header", c.c_uint8 * 16), ("last", c.c_int32), ("code", c.c_uint32)]


class Setting(c.Structure):
    _fields_ = [("id", c.c_int32), ("value", c.c_uint32)]


class Field(c.Structure):
    _fields_ = [("name", c.c_char_p), ("value", c.c_char_p), ("namelen", c.c_size_t), ("valuelen", c.c_size_t),
                ("flags", c.c_uint8)]


READ = c.CFUNCTYPE(c.c_ssize_t, c.c_void_p, c.c_int32, c.c_void_p, c.c_size_t, c.POINTER(c.c_uint32), c.c_void_p,
                   c.c_void_p)


class Provider(c.Structure):
    _fields_ = [("source", c.c_void_p), ("read", READ)]


FRAME = c.CFUNCTYPE(c.c_int, c.c_void_p, c.POINTER(Frame), c.c_void_p)
CHUNK = c.CFUNCTYPE(c.c_int, c.c_void_p, c.c_uint8, c.c_int32, c.POINTER(c.c_uint8), c.c_size_t, c.c_void_p)
CLOSE = c.CFUNCTYPE(c.c_int, c.c_void_p, c.c_int32, c.c_uint32, c.c_void_p)
PAD = c.CFUNCTYPE(c.c_ssize_t, c.c_void_p, c.POINTER(Frame), c.c_size_t, c.c_void_p)
lib.nghttp2_session_mem_recv.restype = lib.nghttp2_session_mem_send.restype = c.c_ssize_t


def good(code):
    assert code >= 0, code
    return code


class Nghttp2:
    def __init__(self):
        callbacks, option, self.session = c.c_void_p(), c.c_void_p(), c.c_void_p()
        self.events, self.out, self.count, self.pad = [], b"", 0, None
        self.kept = [FRAME(self.on_frame), FRAME(self.on_send), CHUNK(self.on_chunk), CLOSE(self.on_close),
                     PAD(self.on_pad)]
        lib.nghttp2_session_callbacks_new(c.byref(callbacks))
        for name, callback in zip(["on_frame_recv", "on_frame_send", "on_data_chunk_recv", "on_stream_close",
                                   "select_padding"], self.kept):
            getattr(lib, "nghttp2_session_callbacks_set_%s_callback" % name)(callbacks, callback)
        # Its user opens the windows, as h2's does.
        lib.nghttp2_option_new(c.byref(option))
        lib.nghttp2_option_set_no_auto_window_update(option, 1)
        good(lib.nghttp2_session_client_new2(c.byref(self.session), callbacks, None, option))
        good(lib.nghttp2_submit_settings(self.session, 0, c.byref(Setting(4, 0)), c.c_size_t(1)))
        self.send()

    def on_frame(self, _, frame, __):
        f = frame.contents
        if f.type == WINDOW_UPDATE:
            self.events.append("window %d %d" % (f.stream, f.word))
        elif f.type == RST_STREAM:
            self.events.append("reset %d %d" % (f.stream, f.word))
        elif f.type == DATA and f.flags & END_STREAM:
            self.events.append("end %d" % f.stream)
        return 0

    def on_send(self, _, frame, __):
        f = frame.contents
        if f.type == GOAWAY:
            self.events.append("broken %d" % c.cast(frame, c.POINTER(GoAway)).contents.code)
        elif f.type == RST_STREAM and not self.asked:
            self.events.append("refused %d %d" % (f.stream, f.word))
        return 0

    def on_chunk(self, _, __, stream, data, length, ___):
        self.events.append("data %d %s" % (stream, bytes(data[:length]).hex()))
        return 0

    def on_close(self, *_):
        self.count -= 1
        return 0

    def on_pad(self, _, frame, most, __):
        f = frame.contents
        return f.length if f.type != DATA or self.pad is None else min(most, f.length + 1 + self.pad)

    # What the user asked for goes out at once; what nghttp2 sends by itself goes out after a take.
    def send(self, asked=True):
        self.asked, data = asked, c.POINTER(c.c_uint8)()
        while n := good(lib.nghttp2_session_mem_send(self.session, c.byref(data))):
            self.out += bytes(data[:n])

    def open(self, stream, end):
        fields = (Field * len(REQUEST))()
        for field, (name, value) in zip(fields, REQUEST):
            field.name, field.namelen = name.encode(), len(name)
            field.value, field.valuelen = value.encode(), len(value)
        good(lib.nghttp2_session_set_next_stream_id(self.session, stream))
        good(lib.nghttp2_submit_headers(self.session, END_STREAM if end else 0, -1, None, fields,
                                        c.c_size_t(len(fields)), None))
        self.count += 1
        self.send()

    def window(self, stream, units):
        good(lib.nghttp2_submit_window_update(self.session, 0, stream, units))
        self.send()

    def data(self, stream, data, end=False, pad=None):
        def read(_, __, to, most, flags, ___, ____):
            assert len(data) <= most
            c.memmove(to, data, len(data))
            flags[0] = END_STREAM
            return len(data)
        self.pad = pad
        provider = Provider(None, READ(read))
        self.kept.append(provider)
        good(lib.nghttp2_submit_data(self.session, END_STREAM if end else 0, stream, c.byref(provider)))
        self.send()

    def reset(self, stream):
        good(lib.nghttp2_submit_rst_stream(self.session, 0, stream, CANCEL))
        self.send()

    def take(self, data):
        self.events = []
        taken = lib.nghttp2_session_mem_recv(self.session, data, c.c_size_t(len(data)))
        assert taken == len(data), taken
        self.send(asked=False)
        return self.events

    def sent(self):
        out, self.out = self.out, b""
        return out

    def open_streams(self):
        return self.count
