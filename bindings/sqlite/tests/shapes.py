"""Blobs of polygons that are written as WKT, and connections with the extension, whose file MOD_I_SHAPE names."""
import json
import os
import re
import sqlite3
import struct

MODULE = os.environ["MOD_I_SHAPE"]
TYPES = {"POINT": 1, "LINESTRING": 2, "POLYGON": 3, "MULTIPOINT": 4, "MULTILINESTRING": 5, "MULTIPOLYGON": 6}
BOXES = (0, 4, 6, 6, 8)  # sides, by their number in the flags of a GeoPackage
SQUARE = "POLYGON((0 0,2 0,4 0,4 4,0 4,0 0))"
CLEAN = "POLYGON((0 0,4 0,4 4,0 4,0 0))"
SEVERAL = "MULTIPOLYGON(((0 0,2 0,9 0,9 9,0 9,0 0),(1 1,1 2,2 2,1 1)),((20 20,25 20,30 20,30 30,20 20)))"
CLEAN_SEVERAL = "MULTIPOLYGON(((0 0,9 0,9 9,0 9,0 0),(1 1,1 2,2 2,1 1)),((20 20,30 20,30 30,20 20)))"


def connect(entry=None, path=":memory:"):
    database = sqlite3.connect(path, isolation_level=None)
    database.enable_load_extension(True)
    database.execute("SELECT load_extension(?, ?)" if entry else "SELECT load_extension(?)", (MODULE, entry) if entry else (MODULE,))
    database.enable_load_extension(False)
    return database


def parsed(text):
    """The type, and the numbers in lists."""
    name, numbers = re.fullmatch(r"(\w+) ?(.*)", text).groups()
    numbers = re.sub(r"([^\s,()]+) ([^\s,()]+)", r"[\1,\2]", numbers.replace("EMPTY", "()"))
    return TYPES[name], json.loads(numbers.replace("(", "[").replace(")", "]"))


def points_of(kind, numbers):
    depth = {1: 1, 2: 1, 3: 2, 4: 2, 5: 2, 6: 3}[kind]
    for _ in range(depth - 1):
        numbers = [item for part in numbers for item in part]
    return numbers


def packed(kind, numbers, order="<", inner=None):
    """What follows the type of a WKB. A part begins with the byte inner, or with its byte order."""
    mark = bytes([order == "<" if inner is None else inner])
    if kind == 1:
        return struct.pack(order + "2d", *(numbers[0] if numbers else (float("nan"),) * 2))
    count = struct.pack(order + "I", len(numbers))
    if kind == 2:
        return count + b"".join(struct.pack(order + "2d", *point) for point in numbers)
    if kind == 3:
        return count + b"".join(packed(2, ring, order) for ring in numbers)
    part = kind - 3
    return count + b"".join(mark + struct.pack(order + "I", part) + packed(part, item, order, inner) for item in numbers)


def wkb(text, order="<", srid=None):
    kind, numbers = parsed(text)
    head = struct.pack(order + "BI", order == "<", kind | (0 if srid is None else 0x20000000))
    return head + (b"" if srid is None else struct.pack(order + "I", srid)) + packed(kind, numbers, order)


def box(text):
    xs, ys = zip(*points_of(*parsed(text)))
    return min(xs), max(xs), min(ys), max(ys)


def geopackage(text, srid=4326, sides=1, order="<", wkb_order="<"):
    """The box has the number sides among BOXES, and wrong sides but for 1."""
    its = box(text) if sides == 1 else (7,) * BOXES[sides]
    return b"GP\0" + bytes([sides << 1 | (order == "<")]) + struct.pack(f"{order}i{len(its)}d", srid, *its) + wkb(text, wkb_order)


def empty_geopackage(text, srid=4326):
    return b"GP\0\x11" + struct.pack("<i", srid) + wkb(text)


def spatialite(text, srid=4326):
    kind, numbers = parsed(text)
    least_x, greatest_x, least_y, greatest_y = box(text)
    return struct.pack("<BBi4dBI", 0, 1, srid, least_x, least_y, greatest_x, greatest_y, 0x7C, kind) + packed(kind, numbers, "<", 0x69) + b"\xfe"


FORMS = {"WKB": wkb, "EWKB": lambda text: wkb(text, srid=4326), "GeoPackage": geopackage, "SpatiaLite": spatialite}
