#!/usr/bin/env python3
"""Two terminals at the ends of a line, over the shared library of linediff and ctypes alone.

    python3 examples/python/two_terminals.py PREFIX/lib/liblinediff.so

The currents of both stations are arrays, a row for each sample; each frame comes 3000 ticks after it was sent. Prints a line
for each set that is judged, as `./linediff bench < examples/scenarios/internal_fault.csv` does among others. The classes can
be imported from here by a program of your own, as for a simulation together with one of a network.
"""
import ctypes
import math
import sys
from ctypes import Structure, byref, c_bool, c_int16, c_int32, c_int64, c_uint8, c_uint16, c_uint32, c_uint64

# As in include/linediff.h, which says what each field is.
STATUSES = ["DONE", "EMPTY", "FULL", "SETTINGS", "STATION", "STAMP", "PEER", "BITS", "MEMORY"]


class Handle(Structure):
    _fields_ = [("at", ctypes.c_void_p), ("full", c_bool), ("me", c_uint8), ("stations", c_uint8)]


class Settings(Structure):
    _fields_ = (
        [(name, c_uint32) for name in ("spacing", "drift", "slow", "age", "limit", "silent", "rn", "rd")]
        + [("p", c_int32), ("q", c_int32), ("pickup", c_uint16)]
        + [(name, c_uint8) for name in ("stations", "channels", "cycle", "count", "worda", "wordb", "misses")]
    )


class Refusal(Structure):
    _fields_ = [("reason", c_uint32), ("ticks", c_uint32)]


class Own(Structure):
    _fields_ = [("kind", c_uint8), ("number", c_uint32)]


class Judged(Structure):
    _fields_ = [("given", c_bool), ("verdicts", c_uint8 * 3), ("number", c_uint32)]


class Change(Structure):
    _fields_ = [("peer", c_uint8), ("alarm", c_uint8), ("on", c_bool)]


class Changes(Structure):
    _fields_ = [("count", c_uint8), ("items", Change * 10)]


class Message(Structure):
    _fields_ = (
        [(name, c_uint64) for name in ("sent", "echo_sent", "echo_came")]
        + [("number", c_uint32), ("a", c_int16), ("b", c_int16), ("c", c_int16)]
        + [("from", c_uint8), ("to", c_uint8), ("has_echo", c_bool)]
    )


class Chunk(Structure):
    _fields_ = [("bytes", c_uint8 * 32), ("count", c_uint16)]


class Outgoing(Structure):
    _fields_ = [("bytes", c_uint8 * 32), ("to", c_uint8), ("begins", c_bool), ("message", Message)]


class Sampled(Structure):
    _fields_ = [("own", Own), ("judged", Judged), ("changes", Changes)]


class Slotted(Structure):
    _fields_ = [("frames", Outgoing * 2), ("count", c_uint8), ("changes", Changes)]


class Frame(Structure):
    _fields_ = [("kind", c_uint8), ("detail", c_uint8), ("odd", c_bool), ("yellow", c_bool), ("payload", c_uint8 * 12)]


class News(Structure):
    _fields_ = [("message", Message), ("number", c_uint32), ("last", c_uint32), ("kind", c_uint8), ("address", c_uint8)]


class Refused(Structure):
    _fields_ = [("kind", c_uint8), ("detail", c_uint8)]


class Exchange(Structure):
    _fields_ = [(name, c_uint64) for name in ("a1", "b2", "b3", "a4")] + [("given", c_bool)]


class Placed(Structure):
    _fields_ = [("number", c_int64), ("kind", c_uint8)]


class Heard(Structure):
    _fields_ = [
        ("news", News),
        ("chosen", Exchange),
        ("placed", Placed),
        ("frame", Frame),
        ("refused", Refused),
        ("taken", c_uint8),
        ("judged", Judged),
        ("changes", Changes),
    ]


class Library:
    """The shared library at a path."""

    def __init__(self, path):
        self.calls = calls = ctypes.CDLL(path)
        calls.linediff_usual.argtypes = [c_uint8, c_uint8, ctypes.POINTER(Settings)]
        calls.linediff_new.argtypes = [ctypes.POINTER(Handle), ctypes.POINTER(Settings), c_uint8, ctypes.POINTER(Refusal)]
        calls.linediff_free.argtypes = [ctypes.POINTER(Handle)]
        calls.linediff_sample.argtypes = [ctypes.POINTER(Handle), c_uint64, c_int16, c_int16, c_int16, ctypes.POINTER(Sampled)]
        calls.linediff_slot.argtypes = [ctypes.POINTER(Handle), c_uint64, ctypes.POINTER(Slotted)]
        calls.linediff_bits.argtypes = [ctypes.POINTER(Handle), c_uint64, c_uint8, ctypes.POINTER(Chunk), ctypes.POINTER(Heard)]
        calls.linediff_fault.argtypes = [ctypes.POINTER(Handle), c_uint64, c_uint8, ctypes.POINTER(Changes)]
        calls.linediff_layout.argtypes = [ctypes.POINTER(Sampled), ctypes.POINTER(Slotted), ctypes.POINTER(Heard)]
        for call in (calls.linediff_usual, calls.linediff_free, calls.linediff_layout):
            call.restype = None
        for call in (calls.linediff_new, calls.linediff_sample, calls.linediff_slot, calls.linediff_bits, calls.linediff_fault):
            call.restype = c_uint32

    def settings(self, stations, channels, **others):
        """The defaults of a line, but for these others."""
        settings = Settings()
        self.calls.linediff_usual(stations, channels, byref(settings))
        for name, value in others.items():
            setattr(settings, name, value)
        return settings


class Terminal:
    """The terminal of one station. Each call answers what it tells, or raises ValueError with the name of its status."""

    def __init__(self, library, settings, me):
        self.calls, self.handle, refusal = library.calls, Handle(), Refusal()
        status = self.calls.linediff_new(byref(self.handle), byref(settings), me, byref(refusal))
        if status:
            raise ValueError("%s, reason %d, ticks %d" % (STATUSES[status], refusal.reason, refusal.ticks))

    def close(self):
        self.calls.linediff_free(byref(self.handle))

    def told(self, call, told, *words):
        if status := call(byref(self.handle), *words, byref(told)):
            raise ValueError(STATUSES[status])
        return told

    def sample(self, now, a, b, c):
        return self.told(self.calls.linediff_sample, Sampled(), now, a, b, c)

    def slot(self, now):
        return self.told(self.calls.linediff_slot, Slotted(), now)

    def bits(self, now, peer, data, count):
        """Takes in the first `count` bits of these bytes."""
        chunk = Chunk((c_uint8 * 32)(*data), count)
        return self.told(self.calls.linediff_bits, Heard(), now, peer, byref(chunk))

    def fault(self, now, peer):
        return self.told(self.calls.linediff_fault, Changes(), now, peer)


def wave(amplitude, step, tick):
    """A wave of 20 steps a cycle of 20,000 ticks, which begins at its crest at step 0, rounded as a scenario's."""
    cosine = round(16384 * math.cos(2 * math.pi * (tick // 1000 + step) / 20))
    return int(amplitude * cosine / 16384)


def currents(me, ticks):
    """The currents of a station, a row for each tick at which it samples: load, and a fault on phase a from tick 100,000 on."""
    load, fault = (((1000, 0), (12000, 2)), ((1000, 10), (9000, 3)))[me - 1]
    behind = 10 * (me - 1)
    return {t: (wave(*(fault if t >= 100000 else load), t), wave(1000, 13 + behind, t), wave(1000, 7 + behind, t)) for t in ticks}


def main():
    library = Library(sys.argv[1])
    settings, starts, delay, end = library.settings(2, 5, drift=20), {1: 0, 2: 4200}, 3000, 200000
    ends = {me: Terminal(library, settings, me) for me in starts}
    lines = {me: {} for me in starts}  # the frames that come to a station, by tick
    rows = {me: currents(me, [t for t in range(1, end) if (t + start) % 1000 == 0]) for me, start in starts.items()}

    def show(tick, me, judged):
        if judged.given:
            print("set,%d,%d,%d,%s" % (tick, me, judged.number, "".join("WROT"[verdict] for verdict in judged.verdicts)))

    for tick in range(end):
        for me, terminal in ends.items():
            if tick in lines[me]:
                show(tick, me, terminal.bits(tick + starts[me], 3 - me, lines[me].pop(tick), 256).judged)
        for me, terminal in ends.items():
            if tick in rows[me]:
                show(tick, me, terminal.sample(tick + starts[me], *rows[me][tick]).judged)
        for me, terminal in ends.items():
            if tick % 125 == 0:
                lines[3 - me][tick + delay] = bytes(terminal.slot(tick + starts[me]).frames[0].bytes)
    for terminal in ends.values():
        terminal.close()


if __name__ == "__main__":
    main()
