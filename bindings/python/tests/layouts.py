"""Run by KLayout: makes a layout of random polygons, or reads one.

    klayout -b -r layouts.py -rd made=GDS -rd rings=JSON
    klayout -b -r layouts.py -rd told=GDS -rd rings=JSON

The rings of what is made are those that Polygon.compress(true) leaves, and
where it leaves none, the box of the polygon as a text. Each layer of each
cell has 150 polygons, or as many as -rd polygons=N says."""

import json
import random

import numpy as np
import pya

import plain

CELLS, LAYERS = 4, 3
POLYGONS = int(globals().get("polygons", 150))


def ring_of(polygon):
    return [(point.x, point.y) for point in polygon.each_point_hull()]


def random_polygon(numbers):
    """A polygon as it is given, in which KLayout removes nothing."""
    ring = []
    while len(ring) < 3:
        ring = plain.random_ring(numbers, np.int16, 12)
    return pya.Polygon([pya.Point(x, y) for x, y in ring], True)


def make():
    """Write a layout, and answer its rings by cell and layer."""
    numbers = random.Random(1)
    layout, left = pya.Layout(), {}
    for cell in range(CELLS):
        made = layout.create_cell(f"C{cell}")
        for layer in range(LAYERS):
            shapes = made.shapes(layout.layer(layer, 0))
            rings = left[f"C{cell} {layer}"] = []
            for _ in range(POLYGONS):
                polygon = random_polygon(numbers)
                shapes.insert(polygon)
                box = str(polygon.bbox())
                polygon.compress(True)
                rings.append(ring_of(polygon) or box)
            shapes.insert(pya.Box(0, 0, 5, 5))
            rings.append([(0, 0), (5, 0), (5, 5), (0, 5)])
            shapes.insert(pya.Path([pya.Point(0, 0), pya.Point(9, 0)], 4))
            shapes.insert(pya.Text("a", pya.Trans()))
    layout.write(globals()["made"])
    return left


def tell():
    """The rings of a layout by cell and layer.

    KLayout reads a rectangle as a box."""
    layout, found = pya.Layout(), {}
    layout.read(globals()["told"])
    for cell in layout.each_cell():
        for layer in layout.layer_indexes():
            name = f"{cell.name} {layout.get_info(layer).layer}"
            shapes = list(cell.shapes(layer).each())
            areal = [shape for shape in shapes
                     if shape.is_polygon() or shape.is_box()]
            found[name] = [ring_of(shape.polygon) for shape in areal]
            others = sorted(str(shape).split()[0] for shape in shapes
                            if shape not in areal)
            assert others == ["path", "text"], others
    return found


with open(globals()["rings"], "w", encoding="utf-8") as file:
    json.dump(make() if "made" in globals() else tell(), file)
