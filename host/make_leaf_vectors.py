"""Writes max_zero64.bin, words.bin and exp_any.bin, big-endian, to the folder that it is given.

max_zero64: 8 bytes of an f64, 8 of max(v, 0). words: 4 bytes of a pattern, 4 of the pattern that comes back.
exp_any: 4 bytes of an f32, 4 of exp by 01's steps in Python's own f64, for x above 0, infinite and NaN too.
"""
import ctypes, random, struct, sys

RECORDS = 4080
folder = sys.argv[1]
random.seed(3)

def f32(bits): return struct.unpack(">f", struct.pack(">I", bits))[0]
def f64(bits): return struct.unpack(">d", struct.pack(">Q", bits))[0]

def bits32(x):
    if x != x: return 0x7fc00000
    return struct.unpack(">I", struct.pack(">f", ctypes.c_float(x).value))[0]

def patterns32():
    out = [h << 23 | low for h in range(0x200) for low in (0, 1, 0x400000, 0x7ffffe, 0x7fffff)]
    out += [s | n for s in (0, 1 << 31) for p in range(23) for n in (2**p, 2**p + 1, 2**p - 1)]
    for x in (-104.0, -103.97208, 0.0, 88.72284, 88.72283, 709.7827, -1.0, 1.0):
        b = struct.unpack(">I", struct.pack(">f", x))[0]
        out += [(b + d) % 2**32 for d in range(-20, 21)]
    out += [random.getrandbits(32) for _ in range(RECORDS)]
    return list(dict.fromkeys(out))[:RECORDS]

def patterns64():
    out = [h << 52 | low for h in range(0x1000) if h % 4 == 0 or h % 0x800 in (1, 0x7fe, 0x7ff) for low in (0, 1, 2**52 - 1)]
    out += [s | n for s in (0, 1 << 63) for p in range(52) for n in (2**p, 2**p + 1)]
    out += [random.getrandbits(64) for _ in range(RECORDS)]
    return list(dict.fromkeys(out))[:RECORDS]

def is_nan(w): return w & 0x7fffffff > 0x7f800000

def exp(bits):
    x = f32(bits)
    if x < -104.0: return 0
    t, r = x / 1024.0, 1.0
    for n in range(8, 0, -1): r = 1.0 + (t / n) * r
    for _ in range(10): r = r * r
    return bits32(r)

with open(folder + "/max_zero64.bin", "wb") as f:
    for b in patterns64():
        f.write(struct.pack(">QQ", b, b if f64(b) > 0 else 0))
with open(folder + "/words.bin", "wb") as f:
    for w in patterns32():
        f.write(struct.pack(">II", w, 0x7fc00000 if is_nan(w) else w))
with open(folder + "/exp_any.bin", "wb") as f:
    for w in patterns32():
        f.write(struct.pack(">II", w, exp(w)))
