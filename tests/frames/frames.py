#!/usr/bin/env python3
"""Runs the cases of a file through the C functions of frames: `frame ADDRESS MESSAGE ROOM > FRAME` or `N B`, `unframe FRAME ROOM > ADDRESS
MESSAGE` or `N B`. Bytes are hexadecimal, `-` for none. A refused call must leave the buffer as it was, an accepted one all behind its answer."""
import ctypes
import sys

library = ctypes.CDLL(sys.argv[1])
call = {"frame": library.pewterslug_write_frame, "unframe": library.pewterslug_read_frame}
for f in call.values():
    f.restype = ctypes.c_uint64


def lent(b):
    return ctypes.create_string_buffer(b, max(len(b), 1)), ctypes.c_size_t(len(b))


def bytes_of(word):
    return b"" if word == "-" else bytes.fromhex(word)


def answer(words):
    data, room = bytes_of(words[-2]), int(words[-1])
    before = bytes((7 * i + 3) % 256 for i in range(room))
    buffer, room_length = lent(before)
    source, source_length = lent(data)
    first = [ctypes.c_uint8(int(words[1]))] if words[0] == "frame" else []
    r = call[words[0]](*first, source, source_length, buffer, room_length)
    after = buffer.raw[:room]
    if source.raw[: len(data)] != data:
        return "the lent bytes that are only read have changed"
    number, value, size = r % 256, r >> 16 & 255, r >> 32
    if number:
        return f"{number} {size}" if after == before else "the buffer of a refused call has changed"
    if after[size:] != before[size:]:
        return "bytes behind the answer have changed"
    out = after[:size].hex() or "-"
    return out if words[0] == "frame" else f"{value} {out}"


wrong = cases = 0
for line in open(sys.argv[2]):
    if not line.strip():
        continue
    asked, _, expected = line.strip().partition(" > ")
    given = answer(asked.split())
    cases += 1
    if given != expected:
        wrong += 1
        print(f"{asked[:70]}: {given} for {expected}")
print(f"frames: {cases} cases, {wrong} wrong")
sys.exit(wrong != 0)
