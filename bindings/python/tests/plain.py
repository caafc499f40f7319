"""What the calls should answer, by plain loops over tuples, and random
rings to ask about."""

from fractions import Fraction

import numpy as np

import i_shape._library

# The work is shared by as many threads as a test asks for.
i_shape._library.processors = lambda: 8

DTYPES = (np.int16, np.int32, np.int64)


def bound(dtype):
    """What a safe coordinate is below, and above the negative of."""
    return 2 ** (8 * np.dtype(dtype).itemsize - 2)


def cross(a, b, c):
    return ((b[0] - a[0]) * (c[1] - b[1])) - ((b[1] - a[1]) * (c[0] - b[0]))


def dot(a, b, c):
    return ((b[0] - a[0]) * (c[0] - b[0])) + ((b[1] - a[1]) * (c[1] - b[1]))


def turns(ring):
    """Each point between its neighbours."""
    return [(ring[k - 1], ring[k], ring[(k + 1) % len(ring)])
            for k in range(len(ring))]


def is_zero_turn(a, b, c):
    return cross(a, b, c) == 0


def is_back(a, b, c):
    return cross(a, b, c) == 0 and dot(a, b, c) <= 0


def removed(ring, is_removable, random):
    """An end of removing points in random order, None where it collapses."""
    ring = list(ring)
    while len(ring) >= 3:
        places = [k for k, turn in enumerate(turns(ring))
                  if is_removable(*turn)]
        if not places:
            return ring
        del ring[random.choice(places)]
    return None


def rotations(ring):
    return [ring[k:] + ring[:k] for k in range(len(ring))]


def is_in_order(part, ring):
    """Whether some points of the ring, in their order, are the part."""
    points = iter(ring)
    return all(point in points for point in part)


def canonical(ring, random):
    left = removed(ring, is_zero_turn, random)
    return left and min(rotations(left))


def canonical_unoriented(ring, random):
    """The lesser of the forms of the ring and of the ring read backwards."""
    form = canonical(ring, random)
    return form and min(form, canonical(ring[::-1], random))


def winding(ring, point):
    """How often the ring winds about the point, to the left."""
    turns = 0
    for a, b in zip(ring, ring[1:] + ring[:1]):
        if a[1] <= point[1] < b[1] and cross(a, b, point) > 0:
            turns += 1
        if b[1] <= point[1] < a[1] and cross(a, b, point) < 0:
            turns -= 1
    return turns


def area_two(ring):
    return sum(a[0] * b[1] - a[1] * b[0]
               for a, b in zip(ring, ring[1:] + ring[:1]))


def wrapped_area(ring, dtype):
    """The double area, reduced to twice the bits of the dtype."""
    half = 2 ** (16 * np.dtype(dtype).itemsize - 1)
    return (area_two(ring) + half) % (2 * half) - half


def dedup(ring):
    return [b for a, b, c in turns(ring) if a != b]


def is_simple(ring):
    return len(ring) >= 3 and not any(is_zero_turn(*t) for t in turns(ring))


def has_no_spikes(ring):
    ring = dedup(ring)
    return len(ring) >= 3 and not any(
        cross(*turn) == 0 and dot(*turn) < 0 for turn in turns(ring))


def is_convex(ring):
    ring = dedup(ring)
    crosses = [cross(*turn) for turn in turns(ring)]
    return len(ring) <= 2 or has_no_spikes(ring) and not (
        min(crosses) < 0 < max(crosses))


def shared(a, b, c, e):
    """The ends of what the segments a-b and c-e share, None for nothing."""
    u, v, w = ((q[0] - p[0], q[1] - p[1]) for p, q in ((a, b), (c, e), (a, c)))
    across, on_v, on_u = (s[0] * t[1] - s[1] * t[0]
                          for s, t in ((u, v), (w, v), (w, u)))
    if across:
        s, t = Fraction(on_v, across), Fraction(on_u, across)
        if not (0 <= s <= 1 and 0 <= t <= 1):
            return None
        point = a[0] + s * u[0], a[1] + s * u[1]
        return point, point
    if on_u or on_v:
        return None
    low, high = max(min(a, b), min(c, e)), min(max(a, b), max(c, e))
    return (low, high) if low <= high else None


def contacts(rings):
    """Each two edges of the rings that share a point other than one at which
    one of them follows the other, and how they meet, by all pairs."""
    ends = []
    for ring in rings:
        start, count = len(ends), len(ring)
        ends += [start + (k + 1) % count for k in range(count)]
    points = [tuple(map(int, point)) for ring in rings for point in ring]
    for i, of_i in enumerate(ends):
        for j in range(i + 1, len(ends)):
            edges = points[i], points[of_i], points[j], points[ends[j]]
            both = shared(*edges)
            allowed = [points[j]] * (of_i == j) + [points[i]] * (ends[j] == i)
            if both and (both[0] != both[1] or both[0] not in allowed):
                yield i, j, kind_of_contact(both, edges)


def kind_of_contact(both, edges):
    """How edges meet, by the ends of what they share."""
    if both[0] != both[1]:
        return i_shape.ContactKind.OVERLAP
    if both[0] in edges:
        return i_shape.ContactKind.TOUCH
    return i_shape.ContactKind.CROSSING


def first_contact(rings):
    return next(((i, j) for i, j, _ in contacts(rings)), None)


def is_simple_polygon(ring):
    return (len(ring) >= 3 and len({*ring}) > 1
            and first_contact([ring]) is None)


def is_degenerate(ring):
    return len(ring) < 3 or len(set(ring)) == 1


def first_fault(rings):
    """The first fault of a polygon, an outer ring and holes: the number of
    its kind, and two places."""
    holes = range(1, len(rings))
    for place, ring in enumerate(rings):
        if is_degenerate(ring):
            return 1, place, 0
    contact = first_contact(rings)
    if contact:
        return 2, *contact
    for hole in holes:
        if any(winding(rings[0], point) == 0 for point in rings[hole]):
            return 3, hole, 0
    for hole in holes:
        for other in holes:
            if other != hole and any(winding(rings[other], point)
                                     for point in rings[hole]):
                return 4, hole, other
    return 0, 0, 0


def rings_and_edges(rings):
    """Of each point of the rings end to end, its ring and the edge from it."""
    return [(place, (a, b)) for place, ring in enumerate(rings)
            for a, b in zip(ring, ring[1:] + ring[:1])]


def pieces(edge, points):
    """The ends of an edge and the middles between its points, of which the
    first and the last are its ends."""
    points = sorted({*edge, *points})
    return [*edge, *(tuple(Fraction(p + q, 2) for p, q in zip(*ends))
                     for ends in zip(points, points[1:]))]


def lies_on(point, ring):
    return any(shared(point, point, a, b)
               for a, b in zip(ring, ring[1:] + ring[:1]))


def first_circle(touches):
    """The first touch of rings that touches at lesser points join. The
    touches are points, with the two edges and their rings."""
    joined = []
    for point in sorted({point for point, *_ in touches}):
        here = [touch for touch in sorted(touches) if touch[0] == point]
        for _, edges, pair in here:
            if any(pair <= group for group in joined):
                return 5, *edges
        for _, _, pair in here:
            groups = [group for group in joined if group & pair]
            joined = [group for group in joined if not group & pair]
            joined.append(pair.union(*groups))
    return 0, 0, 0


def first_touching_fault(rings):
    """The first fault of a polygon whose rings may touch."""
    for place, ring in enumerate(rings):
        if is_degenerate(ring):
            return 1, place, 0
    edges, touches = rings_and_edges(rings), []
    for i, j, kind in contacts(rings):
        (one, first), (other, second) = edges[i], edges[j]
        if one == other or kind != i_shape.ContactKind.TOUCH:
            return 2, i, j
        point, _ = shared(*first, *second)
        touches.append((point, (i, j), frozenset({one, other})))
    samples = {hole: [] for hole in range(1, len(rings))}
    for place, (ring, edge) in enumerate(edges):
        if ring:
            samples[ring] += pieces(edge, [
                point for point, pair, _ in touches if place in pair])
    for hole, points in samples.items():
        if any(not (winding(rings[0], point) or lies_on(point, rings[0]))
               for point in points):
            return 3, hole, 0
    for hole, points in samples.items():
        for other in samples:
            if other != hole and any(
                    winding(rings[other], point)
                    and not lies_on(point, rings[other]) for point in points):
                return 4, hole, other
    return first_circle(touches)


def contains(ring, point):
    x, y = point
    inside = False
    for a, b in zip(ring, ring[1:] + ring[:1]):
        if (a[1] > y) != (b[1] > y):
            # The edge passes the height of y to the right of x.
            side = (b[0] - a[0]) * (y - a[1]) - (x - a[0]) * (b[1] - a[1])
            inside ^= side > 0 if b[1] > a[1] else side < 0
    return inside


def random_ring(random, dtype, most=12):
    """A ring of a kind that has zero turns, spikes or great coordinates."""
    count = random.randrange(most + 1)
    limit = bound(dtype) - 1
    span = random.choice([1, 2, 4, limit])
    far = random.choice([(0, 0), (limit - span, span - limit)])
    if span == limit:
        number = [-limit, -limit // 2, 0, limit // 2, limit]
        ring = [(random.choice(number), random.choice(number))
                for _ in range(count)]
    else:
        ring = [(far[0] + random.randint(-span, span),
                 far[1] + random.randint(-span, span)) for _ in range(count)]
    if ring and random.random() < 0.3:
        # A way there and back.
        place = random.randrange(len(ring))
        way = ring[place:place + 4]
        ring[place:place + 4] = way + way[::-1]
    return ring


def array(ring, dtype):
    return np.array(ring, dtype).reshape(-1, 2)


def tuples(points):
    """The points of an array as a list of tuples, and None as it is."""
    return points if points is None else [tuple(p) for p in points.tolist()]


def flat(rings, dtype):
    """The points of rings end to end, and their offsets."""
    offsets = np.zeros(len(rings) + 1, np.int64)
    np.cumsum([len(ring) for ring in rings], out=offsets[1:])
    points = [point for ring in rings for point in ring]
    return array(points, dtype), offsets


def parted(points, offsets):
    """The rings of flat arrays, as lists of tuples."""
    points = tuples(points)
    return [points[start:end] for start, end in zip(offsets, offsets[1:])]
