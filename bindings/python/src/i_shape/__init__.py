"""Contours of whole-number points, cleaned and measured.

A contour is an array of shape (n, 2) and dtype int16, int32 or int64, read
as a cycle. Rings are many contours end to end in one array of points, with
an array of offsets; polygons are rings with offsets of their own. What the
calls of the C library below answer is proved; this package around them is
tested.
"""

from ._contacts import (ContactKind, Fault, contacts, contacts_of_rings,
                        first_contact, first_contact_of_rings,
                        kinds_of_contacts, polygon_validity)
from ._contours import (area_two, canonical, contains, despike,
                        has_no_spikes, is_convex, is_safe, is_simple,
                        is_simple_polygon, simplify)
from ._errors import OffsetsError, UnsafePointError
from ._keys import canonical_keys, same_rings
from ._library import version
from ._measures import (are_simple_polygons, area_two_polygons,
                        area_two_rings, has_no_spikes_rings,
                        is_convex_rings, is_safe_rings, is_simple_rings)
from ._polygons import (Polygons, canonical_polygons, despike_polygons,
                        same_polygons, simplify_polygons)
from ._rings import Rings, canonical_rings, despike_rings, simplify_rings
from ._windings import (contains_points, locate, locate_in_polygons,
                        winding_number, winding_numbers)

__all__ = [
    "ContactKind", "Fault", "OffsetsError", "Polygons", "Rings",
    "UnsafePointError", "are_simple_polygons", "area_two", "area_two_polygons",
    "area_two_rings", "canonical", "canonical_keys", "canonical_polygons",
    "canonical_rings", "contacts", "contacts_of_rings", "contains",
    "contains_points", "despike", "despike_polygons", "despike_rings",
    "first_contact", "first_contact_of_rings", "has_no_spikes",
    "has_no_spikes_rings", "is_convex", "is_convex_rings", "is_safe",
    "is_safe_rings", "is_simple", "is_simple_polygon", "is_simple_rings",
    "kinds_of_contacts", "locate", "locate_in_polygons", "polygon_validity",
    "same_polygons", "same_rings", "simplify", "simplify_polygons",
    "simplify_rings", "winding_number", "winding_numbers",
]
__version__ = version()
