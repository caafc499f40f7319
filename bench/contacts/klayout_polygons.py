"""Run by KLayout: the polygons of a layout, as lists of rings.

    klayout -b -r klayout_polygons.py -rd given=GDS -rd told=JSON

It writes those of all cells and layers, each as it is drawn, which is one
ring, and then what Region.merge makes of each by itself, with holes: as it
does by default, and with min_coherence.
"""

import json

import pya

import layout as example


def points_of(points):
    return [(point.x, point.y) for point in points]


def rings_of(polygon):
    """The outer ring of a polygon, and its holes."""
    return [points_of(polygon.each_point_hull()),
            *(points_of(polygon.each_point_hole(hole))
              for hole in range(polygon.holes()))]


def merged(shape, is_coherent):
    region = pya.Region(shape.polygon)
    region.min_coherence = is_coherent
    region.merge()
    return map(rings_of, region.each())


def polygons_of(path):
    layout = pya.Layout()
    layout.read(path)
    shapes = [place.shape for place in example.find(layout).places]
    return {
        "drawn": [[points_of(shape.simple_polygon.each_point())]
                  for shape in shapes],
        **{name: [polygon for shape in shapes
                  for polygon in merged(shape, is_coherent)]
           for name, is_coherent in (("merged", False),
                                     ("merged, coherent", True))},
    }


with open(globals()["told"], "w", encoding="utf-8") as file:
    json.dump(polygons_of(globals()["given"]), file)
