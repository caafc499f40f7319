"""Polygons in and out: shapely, GeoJSON, WKT, WKB, and floats onto a grid.

Each reader returns :class:`Features`: the package's own polygons, in floats
and with open rings, and which of them each feature has. A :class:`Grid`
makes whole numbers of them for the calls of :mod:`i_shape`, and floats of
the results. Only the calls for shapely and geopandas import these.
"""

from ._cleaners import (canonical_features, despike_features,
                        simplify_features)
from ._closing import close_rings, narrow_offsets, open_rings
from ._conditions import has_no_spikes_features, is_simple_features
from ._features import FeatureError, Features, Place, features_of
from ._geojson import from_geojson, to_geojson
from ._geoseries import (canonical_geoseries, despike_geoseries,
                         simplify_geoseries)
from ._grid import (Grid, features_from_grid, features_to_grid, from_grid,
                    to_grid)
from ._keys_of_features import feature_keys
from ._locating import locate_in_features
from ._shapely import from_shapely, to_shapely
from ._validity import FeatureFault, explain_validity
from ._wkb import from_wkb, to_wkb
from ._wkt import from_wkt, to_wkt

__all__ = [
    "FeatureError", "FeatureFault", "Features", "Grid", "Place",
    "canonical_features", "canonical_geoseries", "close_rings",
    "despike_features", "despike_geoseries", "explain_validity",
    "feature_keys", "features_from_grid", "features_of", "features_to_grid",
    "from_geojson", "from_grid", "from_shapely", "from_wkb", "from_wkt",
    "has_no_spikes_features", "is_simple_features", "locate_in_features",
    "narrow_offsets", "open_rings", "simplify_features", "simplify_geoseries", "to_geojson",
    "to_grid", "to_shapely", "to_wkb", "to_wkt",
]
