#!/usr/bin/env python3
"""Makes line.bin: the bits of a line with relay messages, damaged frames, a loss of lock and a new lock."""
import os
import sys

WORDS = (0x9B0F, 0xDF0F)
CHANNELS = 5
IDLE = b"\xff" * CHANNELS


def check(data):
    """CRC-32, the highest bit first, begun with ones and inverted at the end."""
    rest = 0xFFFFFFFF
    for byte in data:
        rest ^= byte << 24
        for _ in range(8):
            rest = (rest << 1 ^ (0x04C11DB7 if rest >> 31 else 0)) & 0xFFFFFFFF
    return rest ^ 0xFFFFFFFF


def message(number, sent, echo, phases, stations=(1, 2)):
    """The 36 bytes of a relay message."""
    data = bytes([0xD5, 0x94, stations[0] << 4 | stations[1], 1 if echo else 0]) + number.to_bytes(4, "big")
    for stamp in (sent, *(echo or (0, 0))):
        data += stamp.to_bytes(6, "big")
    for value in phases:
        data += (value & 0xFFFF).to_bytes(2, "big")
    return data + check(data).to_bytes(4, "big")


def frame(word, yellow, payload):
    """The 32 bytes of a frame: after the header each bit is followed by its complement."""
    bits = [len(payload) >> k & 1 for k in (3, 2, 1, 0)] + [yellow] + [0] * 19
    for byte in payload.ljust(12, b"\xff"):
        bits += [byte >> k & 1 for k in range(7, -1, -1)]
    number = word
    for bit in bits:
        number = number << 2 | (1 if bit == 0 else 2)
    return number.to_bytes(32, "big")


def pieces(data, channels=CHANNELS):
    """The payloads that carry a message; the rest of the last one is idle."""
    return [data[at : at + channels].ljust(channels, b"\xff") for at in range(0, len(data), channels)]


def line():
    """The bytes of the line: 42 frames behind three bits. Four messages come, the second and the third of them damaged."""
    payloads = [IDLE] * 3
    for number, echo in ((1000, None), (1001, (990_000, 995_000)), (1002, (991_000, 996_000))):
        payloads += pieces(message(number, 1000 * number, echo, (number, -number, 0)))
    payloads += [IDLE] * 7 + pieces(message(1003, 1_003_000, (992_000, 997_000), (1003, -1003, 0)))
    frames = [bytearray(frame(WORDS[at % 2], at == 2, payload)) for at, payload in enumerate(payloads)]
    # The first bit of a pair is inverted, and then both of one: only the check can tell that.
    frames[14][10] ^= 0x20
    frames[21][10] ^= 0x30
    # Three headers in a row are lost, and with them the lock.
    for at in (28, 29, 30):
        frames[at][:2] = b"\0\0"
    bits = "101" + "".join(format(byte, "08b") for data in frames for byte in data)
    return int(bits.ljust((len(bits) + 7) // 8 * 8, "0"), 2).to_bytes((len(bits) + 7) // 8, "big")


def main():
    path = os.path.join(os.path.dirname(os.path.abspath(__file__)), "line.bin")
    with open(sys.argv[1] if len(sys.argv) > 1 else path, "wb") as file:
        file.write(line())


if __name__ == "__main__":
    main()
