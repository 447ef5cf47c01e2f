#!/usr/bin/env python3
"""Writes the sample cards: cards/NAME/in.las, sheet.bin, and what the program makes of them: expected.las and line, and
expected-empty.las under the empty sheet.

Plain code written from the requirements (docs/SPECIFICATION.md). It shares nothing with the crates, so expected.las is
a second opinion on what they release. Run it anywhere: python3 cards/make.py
"""
import os
import struct

HERE = os.path.dirname(os.path.abspath(__file__))
SIZES = {0: 20, 1: 28, 2: 26, 3: 34}
# The flags of a classification byte; the class is in the five bits below them.
SYNTHETIC, KEY_POINT, WITHHELD = 32, 64, 128


# ---- making a file

def text(value, width, junk=b""):
    """A text field: the text, a zero byte, then junk that a release must not show. The text may end in spaces, which it
    must not show either."""
    field = value + b"\0" + junk if junk else value
    return field[:width].ljust(width, b"\0")


def vlr(user, record_id, description, payload, junk=b"", reserved=0xAABB):
    return struct.pack("<H", reserved) + text(user, 16, junk) + struct.pack("<HH", record_id, len(payload)) \
        + text(description, 32, junk) + payload


def point(fmt, x, y, z, intensity, flags, class_byte, angle, user, source, time=0, colour=(0, 0, 0), extra=b""):
    number, returns, scan, edge = flags
    body = struct.pack("<iiiHBBbBH", x, y, z, intensity, number | returns << 3 | scan << 6 | edge << 7,
                       class_byte, angle, user, source)
    if fmt in (1, 3):
        body += struct.pack("<Q", time)
    if fmt in (2, 3):
        body += struct.pack("<HHH", *colour)
    return body + extra


def las(fmt, record_length, scales, offsets, vlrs, points, header_extra, gap, trailing, stated, system, software, junk):
    """A file whose stated counts and bounds are taken from `stated`, whatever the points say."""
    header_size = 227 + len(header_extra)
    places = header_size + sum(map(len, vlrs)) + len(gap)
    by_return, bounds = stated
    head = b"LASF" + struct.pack("<HH", 7, 1) + bytes(range(16)) + bytes([1, 2])
    head += text(system, 32, junk) + text(software, 32, junk)
    head += struct.pack("<HHHIIBHI", 200, 2011, header_size, places, len(vlrs), fmt, record_length, len(points))
    head += struct.pack("<5I", *by_return) + struct.pack("<6d", *scales, *offsets) + struct.pack("<6d", *bounds)
    assert len(head) == 227
    return head + header_extra + b"".join(vlrs) + gap + b"".join(points) + trailing


# ---- the release, from the specification (only for files and sheets that pass)

def cut(field):
    return field.split(b"\0")[0].rstrip(b" ")


def padded(field):
    return cut(field).ljust(len(field), b"\0")


def sheet_lines(sheet):
    """The kept class ranges, and the kept pairs of cut user ID and record ID."""
    classes, records, at = [], [], 0
    while at < len(sheet):
        assert sheet[at:at + 2] == b"KS"
        if sheet[at + 2] == 1:
            classes.append((sheet[at + 3], sheet[at + 4]))
            at += 5
        else:
            records.append((cut(sheet[at + 3:at + 19]), struct.unpack_from("<H", sheet, at + 19)[0]))
            at += 21
    return classes, records


def kept_records(f, records):
    at, = struct.unpack_from("<H", f, 94)
    count, = struct.unpack_from("<I", f, 100)
    kept = []
    for _ in range(count):
        user, (record_id, length) = f[at + 2:at + 18], struct.unpack_from("<HH", f, at + 18)
        if (cut(user), record_id) in records:
            kept.append(b"\0\0" + padded(user) + f[at + 18:at + 22] + padded(f[at + 22:at + 54]) + f[at + 54:at + 54 + length])
        at += 54 + length
    return kept


def kept_points(f, classes):
    at, = struct.unpack_from("<I", f, 96)
    length, count = struct.unpack_from("<HI", f, 105)
    points = [f[at + i * length:at + (i + 1) * length] for i in range(count)]
    return [p for p in points if p[15] < WITHHELD and any(low <= p[15] % 32 <= high for low, high in classes)]


def bounds_of(f, points):
    """max X, min X, max Y, min Y, max Z, min Z. Python's floats round each product and sum once, to nearest even."""
    scales, offsets = struct.unpack_from("<3d", f, 131), struct.unpack_from("<3d", f, 155)
    if not points:
        return [0.0] * 6
    bounds = []
    for axis in range(3):
        stored = [struct.unpack_from("<i", p, 4 * axis)[0] for p in points]
        for extreme in (max(stored), min(stored)):
            bounds.append(extreme * scales[axis] + offsets[axis])
    return bounds


def release(f, sheet):
    classes, records = sheet_lines(sheet)
    vlrs, points = kept_records(f, records), kept_points(f, classes)
    numbers = [p[14] & 7 for p in points]
    out = b"LASF" + f[4:24] + bytes([1, 2]) + padded(f[26:58]) + padded(f[58:90]) + f[90:94]
    out += struct.pack("<HII", 227, 227 + sum(map(len, vlrs)), len(vlrs)) + f[104:107] + struct.pack("<I", len(points))
    out += struct.pack("<5I", *(numbers.count(r) for r in range(1, 6))) + f[131:179]
    out += struct.pack("<6d", *bounds_of(f, points))
    assert len(out) == 227
    return out + b"".join(vlrs) + b"".join(points)


# ---- the cards

def class_line(low, high):
    return b"KS\x01" + bytes([low, high])


def record_line(user, record_id, junk=b""):
    return b"KS\x02" + text(user, 16, junk) + struct.pack("<H", record_id)


def yard():
    """Format 1, twelve points of classes 2, 5 and 6, all X below zero, returns 0 to 7. Three VLRs; the sheet keeps one
    of them, and classes 2 to 2 and 6 to 6. Text tails hold junk behind the zero. 13 extra header bytes, a gap before
    the points, trailing bytes behind them. The stated counts and bounds lie."""
    junk = b"client 4711"
    vlrs = [vlr(b"yardcrew", 1, b"shift notes", b"gate code 1234", junk),
            vlr(b"yard", 7, b"site outline", bytes(range(24)), b"J"),
            vlr(b"yard", 8, b"prices", b"not for release", junk)]
    returns = [(1, 1), (1, 2), (2, 2), (3, 3), (5, 5), (4, 5), (0, 1), (6, 7), (7, 7), (1, 3), (2, 3), (3, 3)]
    classes = [2, 5, 6, 2, 2, 5, 6, 6, 2, 5, 2, 6]
    points = [point(1, -1000 - 37 * i, 500 - 91 * i, (-1) ** i * 13 * i, 300 + i, (n, of, i & 1, i == 11), cls, -9 + i, i, 40 + i,
                    time=0x7FF8000000000000 + i) for i, ((n, of), cls) in enumerate(zip(returns, classes))]
    stated = ((9, 9, 9, 9, 9), (1.0, 2.0, 3.0, 4.0, 5.0, 6.0))
    f = las(1, 28, (0.01, 0.01, 0.125), (1000.0, -2000.5, 10.0), vlrs, points, b"EXTRA HEADER!", b"gap bytes", b"behind the points",
            stated, b"scanner", b"cutter 1.0", junk)
    return f, class_line(2, 2) + record_line(b"yard", 7, b"other junk") + class_line(6, 6)


def survey():
    """Format 3 with 6 extra bytes in each record. Five VLRs; the sheet keeps the GeoKey directory (LASF_Projection,
    34735) and its doubles (34736), not its text (34737), and names the directory twice. The directory's user ID ends in
    a space in the file, the doubles' in the sheet; the system identifier and the directory's description have spaces
    before their zero, and the doubles' description is spaces alone. The sheet keeps classes 2 to 5. One point of class
    5 has stored X -2147483648, one of class 4 the largest stored Z. A synthetic point of class 3 and a key point of
    class 2 go out. Points of class 1 and 6 are left out, and a withheld one of class 4, with the smallest stored Z."""
    keys = struct.pack("<4H", 1, 1, 0, 3) + struct.pack("<12H", 1024, 0, 1, 1, 2057, 34736, 1, 0, 3072, 0, 1, 32633)
    vlrs = [vlr(b"LASF_Projection", 34737, b"text parameters", b"WGS 84 / UTM 33N|", b"z"),
            vlr(b"LASF_Projection ", 34735, b"GeoKey directory  ", keys, b"draft 3", 0),
            vlr(b"LASF_Spec", 0, b"classes", bytes(16), b"q"),
            vlr(b"LASF_Projection", 34736, b"   ", struct.pack("<d", 6378137.0), b"hidden"),
            vlr(b"lasf_projection", 34735, b"wrong case", b"1234", b"q")]
    values = [(-2147483648, 0, 7, 5), (2147483647, 2147483647, 1, 6), (12, -40, 2147483647, 4), (5, 5, 5, 1),
              (-3, 9, -8, 3 | SYNTHETIC), (77, 1, 0, 2 | KEY_POINT), (0, 0, -99, 4 | WITHHELD), (41, -2147483648, 3, 2)]
    points = [point(3, x, y, z, 65535 - i, (1 + i % 5, 5, i & 1, 0), cls, 90 - i, 255 - i, i, time=i << 60 | 0xABC,
                    colour=(i, 256 * i, 65535), extra=bytes([i]) * 6) for i, (x, y, z, cls) in enumerate(values)]
    stated = ((0, 0, 0, 0, 0), (float("nan"),) * 6)
    f = las(3, 40, (0.001, 0.25, 2.0 ** -10), (-123456.789, 1048576.0, -7.0), vlrs, points, b"", b"", b"\xff" * 5,
            stated, b"helicopter   ", b"a software name of 32 bytes long", b"tail")
    return f, class_line(2, 3) + record_line(b"LASF_Projection", 34735) + record_line(b"LASF_Projection ", 34736) \
        + record_line(b"LASF_Projection", 34735) + class_line(4, 5)


for name, (f, sheet) in (("yard", yard()), ("survey", survey())):
    folder = os.path.join(HERE, name)
    os.makedirs(folder, exist_ok=True)
    released = release(f, sheet)
    records, points = struct.unpack_from("<I", released, 100)[0], struct.unpack_from("<I", released, 107)[0]
    line = b"released %d points %d records %d\n" % (len(released), points, records)
    for file, content in (("in.las", f), ("sheet.bin", sheet), ("expected.las", released), ("line", line),
                          ("expected-empty.las", release(f, b""))):
        with open(os.path.join(folder, file), "wb") as out:
            out.write(content)
