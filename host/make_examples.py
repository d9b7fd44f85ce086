"""Writes examples.bin, big-endian, to the folder that it is given: the worked examples of 01's byte run and one run for
each row of its table of refusals but row 8, whose run has 16,777,217 calls.

A record is that of `runs` in README.md. Every expected byte is 01's: M1's 52 bytes as 01 writes them, and other reports
put together from 01's layout of the report. Nothing here runs the code that is tested.
"""
import struct, sys

folder = sys.argv[1]

def word(w): return struct.pack(">I", w)
def floats(*values): return struct.pack(">%df" % len(values), *values)

NAN = word(0x7fc00000)
RUNNING, UNEXCITED = 0, 2

# Bits, most significant first: kind 2, d 4, half tick 1 (02, two), zero 1, ticks 25, stored 12, held 12, warm 12, rows 12,
# gain fits 12, zero 3; then two rate weights, three moment weights and dt_s, which is elapsed while running. No report here
# has a model.
def report(kind, ticks, stored, held, warm, rows, dt_s):
    bits = 0
    for value, width in (
        (kind, 2), (0, 4), (0, 1), (0, 1), (ticks, 25), (stored, 12), (held, 12), (warm, 12), (rows, 12), (0, 12), (0, 3)
    ):
        bits = bits << width | value
    return bits.to_bytes(12, "big") + floats(0, 0, 0, 0, 0, dt_s)

def before(size): return bytes((31 * k + 165) % 256 for k in range(size))

def record(config, calls, size, result, written=b""):
    output = written + before(size)[len(written):]
    return word(len(config)) + word(len(calls)) + word(size) + config + calls + word(result) + output

def config(amplitude, duration_s, washout_tc_s, flag=0, extension=floats(0, 0)):
    return floats(amplitude, duration_s, washout_tc_s) + word(flag) + extension

def call(dt): return floats(dt, 0, 0)

M1_CONFIG = config(1, 1, 0.5)
M1_CALLS = call(0.25) * 4
M1_REPORT = bytes.fromhex("800000020020000020000000") + bytes(24)
M1_OFFSETS = bytes.fromhex("3F0000003E8000003E000000BEE00000")
assert M1_REPORT == report(UNEXCITED, 4, 4, 0, 4, 0, 0.0)

# A probe just made: running, no tick, elapsed 0.
FRESH = report(RUNNING, 0, 0, 0, 0, 0, 0.0)

def refused(number, config): return record(config, M1_CALLS, 52, number)
def turned_back(number): return word(0x7fc00000 + number)

examples = [
    # M1.
    record(M1_CONFIG, M1_CALLS, 52, 0, M1_REPORT + M1_OFFSETS),
    # M1 in a longer output.
    record(M1_CONFIG, M1_CALLS, 60, 0, M1_REPORT + M1_OFFSETS),
    # Rows 1 to 5: no byte is written.
    refused(1, config(0, 1, 0.5)),
    refused(2, config(1, -1, 0.5)),
    refused(3, config(1, 1, 0)),
    refused(4, config(1, 1, 0.5, 1, NAN + floats(1))),
    refused(5, config(1, 6, 0.5, 1, floats(1, 5))),
    # The flag 80000000 means an extension, so rows 4 and 5 are tested.
    refused(4, config(1, 1, 0.5, 0x80000000, NAN + floats(1))),
    refused(5, config(1, 6, 0.5, 0x80000000, floats(1, 5))),
    # Without an extension they are not.
    record(config(1, 1, 0.5, 0, NAN + NAN), M1_CALLS, 52, 0, M1_REPORT + M1_OFFSETS),
    # Row 6: dt 0.
    record(M1_CONFIG, call(0), 44, 0, FRESH + turned_back(6)),
    # Row 7: a fresh probe, dt 5,000.
    record(M1_CONFIG, call(5000), 44, 0, FRESH + turned_back(7)),
    # Row 7 after a tick of 0.25, whose offset is M1's first: dt 4,096.
    record(
        M1_CONFIG, call(0.25) + call(4096), 48, 0,
        report(RUNNING, 1, 1, 0, 0, 0, 0.25) + M1_OFFSETS[:4] + turned_back(7),
    ),
    # M1 with calls turned back before it and after its end, and at last a good dt, answered by 0.
    record(
        M1_CONFIG, call(0) + call(5000) + M1_CALLS + NAN + floats(0, 0) + call(5000), 72, 0,
        M1_REPORT + turned_back(6) + turned_back(7) + M1_OFFSETS + turned_back(6) + floats(0),
    ),
    # dt 4,096 on a fresh probe: it ends with one entry and no row. The washout takes all of the square, so the offset is 0.
    record(M1_CONFIG, call(4096), 44, 0, report(UNEXCITED, 1, 1, 0, 1, 0, 0.0) + floats(0)),
    # Row 9: 23 bytes of configuration.
    record(M1_CONFIG[:23], M1_CALLS, 52, 9),
    # Row 9: calls not a multiple of 12.
    record(M1_CONFIG, M1_CALLS[:47], 52, 9),
    # Row 9: an output one byte short.
    record(M1_CONFIG, M1_CALLS, 51, 9),
    # Row 9 before row 1.
    record(config(0, 1, 0.5), M1_CALLS, 51, 9),
    # No calls at all, in an output of exactly 36 bytes, of one less, and of more.
    record(M1_CONFIG, b"", 36, 0, FRESH),
    record(M1_CONFIG, b"", 35, 9),
    record(M1_CONFIG, b"", 50, 0, FRESH),
]

with open(folder + "/examples.bin", "wb") as f:
    f.write(b"".join(examples))
