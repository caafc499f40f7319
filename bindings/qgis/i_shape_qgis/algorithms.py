"""The algorithms, which read and write polygons as WKB by ``i_shape.io``."""

from __future__ import annotations

import hashlib

from qgis.core import (QgsFeature, QgsFeatureRequest, QgsFeatureSink,
                       QgsField, QgsFields, QgsGeometry, QgsPointXY,
                       QgsProcessing, QgsProcessingAlgorithm,
                       QgsProcessingException,
                       QgsProcessingFeatureSource,
                       QgsProcessingOutputNumber,
                       QgsProcessingParameterBoolean,
                       QgsProcessingParameterEnum,
                       QgsProcessingParameterFeatureSink,
                       QgsProcessingParameterFeatureSource,
                       QgsProcessingParameterNumber, QgsWkbTypes)
from qgis.PyQt.QtCore import QVariant

_OTHERS = ("error", "keep", "drop")
_COLLAPSED = ("error", "empty", "drop")
_POLYGONS = (QgsWkbTypes.Polygon, QgsWkbTypes.MultiPolygon)
_LARGEST = 1 << 22  # bytes of the polygons of a block
_READING = 90  # per cent of the progress; the rest is writing
_STEP_HELP = (
    "Step: how far neighbours on the grid are apart, in the unit of the"
    " layer's coordinates. The dialog suggests the geometry precision that is"
    " set in the layer's properties or, where none is set, the power of ten"
    " at or above the size of the greatest coordinate of the extent divided"
    " by 10^10: 1e-8 for degrees up to 100, 0.001 for metres up to 10^7. The"
    " grid begins at the layer's (0, 0).")
_OTHERS_HELP = (
    "Other geometries: what becomes of a feature that is no Polygon or"
    " MultiPolygon of two coordinates a point.")
_STAYS_HELP = " One without a geometry stays, unless others are dropped."
_UNTESTED_HELP = " With keep and with drop it isn't tested."
_TOUCHING_HELP = (
    "Rings may touch: two rings of a polygon may touch at single points, as"
    " by the rules of OGC and of PostGIS, unless that parts the inside. A"
    " ring that touches itself and a repeated point stay faults.")
_COLLAPSED_HELP = (
    "Collapsed: what becomes of a feature of which nothing is left, as where"
    " the step is in another unit than the coordinates.")


def _choice(name, text, words):
    """A choice among words, which are its values too."""
    return QgsProcessingParameterEnum(
        name, text, options=words, defaultValue=words[0],
        usesStaticStrings=True)


def _loses(kind, layer):
    """Whether QGIS drops heights or measures of a geometry in a layer."""
    return ((QgsWkbTypes.hasZ(kind) and not QgsWkbTypes.hasZ(layer))
            or (QgsWkbTypes.hasM(kind) and not QgsWkbTypes.hasM(layer)))


def _are_full(features):
    """Which features have points."""
    (_, rings, parts), offsets, _ = features
    ends = rings[parts[offsets]]
    return ends[:-1] < ends[1:]


class _Canceled(Exception):
    """The user has stopped the algorithm."""


class _Block:
    """Features of which the polygons are read together."""

    def __init__(self):
        self.features, self.places, self.blobs, self.size = [], [], [], 0

    def add(self, feature, blob):
        """Add a feature, with the bytes of its polygons where it has some."""
        if blob is not None:
            self.places.append(len(self.features))
            self.blobs.append(blob)
            self.size += len(blob)
        self.features.append(feature)

    def fid(self, place):
        """The FID of one of the features with polygons."""
        return self.features[self.places[place]].id()


class _Algorithm(QgsProcessingAlgorithm):
    """What the algorithms share.

    All features are read and cleaned before the output is made, so that a
    fault leaves none.
    """

    NAME = TITLE = RESULT = HELP = ""
    OTHERS_HELP = _OTHERS_HELP + _STAYS_HELP
    HELP_OF_MORE = ""
    RESULT_TYPE = QgsProcessing.TypeVectorAnyGeometry

    def name(self):
        return self.NAME

    def displayName(self):
        return self.TITLE

    def shortHelpString(self):
        return "\n\n".join(filter(None, (
            self.HELP, _STEP_HELP, self.OTHERS_HELP, self.HELP_OF_MORE)))

    def createInstance(self):
        return type(self)()

    def canExecute(self):
        try:
            import i_shape.io  # noqa: F401
        except (ImportError, OSError) as error:
            return False, (f"The Python package i_shape can't be used:"
                           f" {error}. Install its wheel into the Python of"
                           " QGIS.")
        return True, ""

    def initAlgorithm(self, config=None):
        step = QgsProcessingParameterNumber(
            "STEP", "Step of the grid, in the unit of the coordinates",
            QgsProcessingParameterNumber.Double, minValue=0)
        step.setMetadata({"widget_wrapper": {
            "class": f"{__package__}.step.StepWidget"}})
        for parameter in (
                QgsProcessingParameterFeatureSource(
                    "INPUT", "Polygon layer",
                    [QgsProcessing.TypeVectorAnyGeometry]),
                step,
                _choice("OTHERS", "Other geometries", _OTHERS),
                *self.more_parameters(),
                QgsProcessingParameterFeatureSink(
                    "OUTPUT", self.RESULT, self.RESULT_TYPE)):
            self.addParameter(parameter)

    def more_parameters(self):
        return ()

    def processAlgorithm(self, parameters, context, feedback):
        # Only a dialog asks before it runs.
        is_there, fault = self.canExecute()
        if not is_there:
            raise QgsProcessingException(fault)
        from i_shape.io import FeatureError, Grid
        source = self.parameterAsSource(parameters, "INPUT", context)
        if source is None:
            raise QgsProcessingException(
                self.invalidSourceError(parameters, "INPUT"))
        try:
            grid = Grid(self.parameterAsDouble(parameters, "STEP", context))
            self.prepare(parameters, context, grid)
            found = []
            for block in self._blocks(parameters, context, source, feedback):
                try:
                    found += self.work(block)
                except FeatureError as error:
                    if error.feature is None:
                        raise
                    fid = block.fid(error.feature)
                    raise QgsProcessingException(
                        error.named(f"fid {fid}")) from error
            feedback.pushInfo(self.last())
            goal = self._write(parameters, context, source, found, feedback)
        except _Canceled:
            return {}
        except ValueError as error:
            raise QgsProcessingException(str(error)) from error
        return {"OUTPUT": goal, **self.more_results()}

    def _blocks(self, parameters, context, source, feedback):
        others = self.others(parameters, context)
        total, kind = source.featureCount(), source.wkbType()
        block = _Block()
        # QGIS would stop at polygons that aren't valid, as many here aren't.
        features = source.getFeatures(
            QgsFeatureRequest(),
            QgsProcessingFeatureSource.FlagSkipGeometryValidityChecks)
        for count, feature in enumerate(features):
            if feedback.isCanceled():
                raise _Canceled
            if total > 0:
                feedback.setProgress(_READING * count / total)
            its = feature.geometry() if feature.hasGeometry() else None
            is_polygon = its is not None and its.wkbType() in _POLYGONS
            if is_polygon:
                block.add(feature, bytes(its.asWkb()))
            elif others != "drop":
                if its is not None and others == "error":
                    raise QgsProcessingException(
                        f"fid {feature.id()}: expected a Polygon or a"
                        " MultiPolygon of two coordinates a point, not a"
                        f" {QgsWkbTypes.displayString(its.wkbType())}; keep"
                        " or drop others to allow it")
                if its is not None and _loses(its.wkbType(), kind):
                    raise QgsProcessingException(
                        f"fid {feature.id()}: QGIS would drop the heights or"
                        " measures of a"
                        f" {QgsWkbTypes.displayString(its.wkbType())} in a"
                        f" layer of {QgsWkbTypes.displayString(kind)}s; drop"
                        " others to allow it")
                block.add(feature, None)
            if block.size >= _LARGEST:
                yield block
                block = _Block()
        yield block

    def _write(self, parameters, context, source, found, feedback):
        sink, goal = self.parameterAsSink(
            parameters, "OUTPUT", context, *self.form(source),
            source.sourceCrs())
        if sink is None:
            raise QgsProcessingException(
                self.invalidSinkError(parameters, "OUTPUT"))
        for count, feature in enumerate(found):
            if feedback.isCanceled():
                raise _Canceled
            feedback.setProgress(
                _READING + (100 - _READING) * count / len(found))
            if not sink.addFeature(feature, QgsFeatureSink.FastInsert):
                raise QgsProcessingException(
                    self.writeFeatureError(sink, parameters, "OUTPUT"))
        return goal

    def others(self, parameters, context):
        """What becomes of other geometries."""
        return self.parameterAsEnumString(parameters, "OTHERS", context)

    def form(self, source):
        """The fields and the type of geometry of the output."""
        return source.fields(), source.wkbType()

    def more_results(self):
        return {}

    def prepare(self, parameters, context, grid):
        raise NotImplementedError

    def work(self, block):
        """The features of the output that a block gives."""
        raise NotImplementedError

    def last(self):
        """What is said when all are read."""
        raise NotImplementedError


class _Cleaner(_Algorithm):
    """Rounds polygons onto the grid, cleans them, and brings them back."""

    HELP_OF_MORE = _COLLAPSED_HELP

    def more_parameters(self):
        return (_choice("COLLAPSED", "Collapsed features", _COLLAPSED),)

    def prepare(self, parameters, context, grid):
        self._grid = grid
        self._collapsed = self.parameterAsEnumString(
            parameters, "COLLAPSED", context)
        self._count = self._gone = 0
        self._first = None

    def clean(self, whole):
        raise NotImplementedError

    def work(self, block):
        from i_shape.io import (features_from_grid, features_to_grid,
                                from_wkb, to_wkb)
        whole = features_to_grid(from_wkb(block.blobs), self._grid)
        left = self.clean(whole)
        gone = self._collapsing(block, whole, left)
        for place, blob in zip(block.places,
                               to_wkb(features_from_grid(left, self._grid))):
            geometry = QgsGeometry()
            geometry.fromWkb(blob)
            block.features[place].setGeometry(geometry)
        if self._collapsed != "drop":
            return block.features
        return [feature for place, feature in enumerate(block.features)
                if place not in gone]

    def _collapsing(self, block, whole, left):
        """The places in the block of the features that collapse."""
        gone = (_are_full(whole) & ~_are_full(left)).nonzero()[0].tolist()
        if gone and self._first is None:
            self._first = block.fid(gone[0])
        self._count += len(block.blobs)
        self._gone += len(gone)
        return {block.places[place] for place in gone}

    def last(self):
        if self._gone and self._collapsed == "error":
            raise QgsProcessingException(
                f"nothing is left of {self._gone} of {self._count} features,"
                f" of fid {self._first} first; is the step in the unit of the"
                " coordinates? To allow this, use Collapsed: empty or drop")
        return f"{self._gone} of {self._count} features collapsed"


class Simplify(_Cleaner):
    NAME, TITLE = "simplify", "Clean polygons (simplify)"
    RESULT = "Cleaned"
    HELP = ("Rounds polygons onto a grid, and removes points on straight"
            " edges, repeated points and spikes. It sees one polygon at a"
            " time: where neighbours share a border, take Despike.")

    def clean(self, whole):
        from i_shape.io import simplify_features
        return simplify_features(whole, collapsed="empty")


class Despike(_Cleaner):
    NAME, TITLE = "despike", "Despike polygons"
    RESULT = "Despiked"
    HELP = ("Rounds polygons onto a grid, and removes repeated points and"
            " spikes. Vertices on straight edges stay.")

    def clean(self, whole):
        from i_shape.io import despike_features
        return despike_features(whole, collapsed="empty")


def _oriented():
    return QgsProcessingParameterBoolean(
        "ORIENTED", "A ring that turns the other way is another one", False)


class Canonical(_Cleaner):
    NAME, TITLE = "canonical", "Canonical form of polygons"
    RESULT = "Canonical form"
    HELP = ("Rounds polygons onto a grid, cleans them as Clean does, and"
            " brings each into the form that all equal ones have: where rings"
            " start, which way they turn, and their order.")

    def more_parameters(self):
        return (*super().more_parameters(), _oriented())

    def prepare(self, parameters, context, grid):
        super().prepare(parameters, context, grid)
        self._is_oriented = self.parameterAsBool(
            parameters, "ORIENTED", context)

    def clean(self, whole):
        from i_shape.io import canonical_features
        return canonical_features(whole, collapsed="empty",
                                  oriented=self._is_oriented)


class Duplicates(_Algorithm):
    NAME, TITLE = "dedup", "Remove duplicate polygons"
    RESULT = "Without duplicates"
    HELP = ("Removes features whose canonical form on the grid is that of one"
            " before. Those that stay keep their coordinates.")

    def more_parameters(self):
        return (_oriented(),)

    def prepare(self, parameters, context, grid):
        self._grid = grid
        self._is_oriented = self.parameterAsBool(
            parameters, "ORIENTED", context)
        self._count = 0
        self._seen, self._gone = set(), 0

    def work(self, block):
        from i_shape.io import feature_keys, features_to_grid, from_wkb
        keys = feature_keys(
            features_to_grid(from_wkb(block.blobs), self._grid),
            oriented=self._is_oriented)
        gone = set()
        for place, key in zip(block.places, keys):
            # A digest takes less memory than a key.
            digest = hashlib.sha256(key).digest()
            if key and digest in self._seen:
                gone.add(place)
            self._seen.add(digest)
        self._count += len(keys)
        self._gone += len(gone)
        return [feature for place, feature in enumerate(block.features)
                if place not in gone]

    def last(self):
        return f"{self._gone} of {self._count} features dropped"


class Validity(_Algorithm):
    NAME, TITLE = "validity", "Check validity"
    RESULT, RESULT_TYPE = "Faults", QgsProcessing.TypeVectorPoint
    HELP = ("Rounds polygons onto a grid, and finds those that aren't valid"
            " there: with a ring of fewer than three points or of equal ones,"
            " edges that cross, touch or overlap, or a hole outside the outer"
            " ring or within another hole. For each such feature the output"
            " has one, with the kind, the place and the points of its first"
            " fault: for two edges the points at which they meet, or else the"
            " first point of the ring.")
    OTHERS_HELP = _OTHERS_HELP + _UNTESTED_HELP
    HELP_OF_MORE = _TOUCHING_HELP

    def more_parameters(self):
        return (QgsProcessingParameterBoolean(
            "TOUCHING", "Rings may touch", False),)

    def initAlgorithm(self, config=None):
        super().initAlgorithm(config)
        self.addOutput(QgsProcessingOutputNumber(
            "INVALID", "Number of invalid features"))

    def others(self, parameters, context):
        # The output has none of the features, so there is nothing to keep.
        chosen = super().others(parameters, context)
        return "drop" if chosen == "keep" else chosen

    def form(self, source):
        return self._fields, QgsWkbTypes.MultiPoint

    def prepare(self, parameters, context, grid):
        self._grid = grid
        self._is_touching = self.parameterAsBool(
            parameters, "TOUCHING", context)
        self._count = self._invalid = 0
        self._fields = QgsFields()
        for name, its in (("fid", QVariant.LongLong),
                          ("kind", QVariant.String),
                          ("polygon", QVariant.Int), ("ring", QVariant.Int),
                          ("reason", QVariant.String)):
            self._fields.append(QgsField(name, its))

    def work(self, block):
        from i_shape.io import explain_validity, from_wkb
        faults = explain_validity(from_wkb(block.blobs), self._grid,
                                  touching=self._is_touching)
        found = [self._feature(block.fid(place), fault)
                 for place, fault in enumerate(faults) if fault is not None]
        self._count += len(faults)
        self._invalid += len(found)
        return found

    def _feature(self, fid, fault):
        """The feature of a fault."""
        its = QgsFeature(self._fields)
        kind = fault.kind.name.lower().replace("_", " ")
        its.setAttributes([fid, kind, fault.polygon, fault.ring, str(fault)])
        if fault.points:
            its.setGeometry(QgsGeometry.fromMultiPointXY(
                [QgsPointXY(x, y) for x, y in fault.points]))
        return its

    def last(self):
        return f"{self._invalid} of {self._count} features invalid"

    def more_results(self):
        return {"INVALID": self._invalid}


ALGORITHMS = (Simplify, Despike, Canonical, Duplicates, Validity)
