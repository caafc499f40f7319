"""The algorithms by PyQGIS, over layers in memory: where features are kept, many are read at a time, or something ends the work."""
import os
import sys
import tempfile
import unittest
from unittest import mock

from qgis.core import (QgsApplication, QgsFeature, QgsGeometry, QgsProcessingContext, QgsProcessingException, QgsProcessingFeedback, QgsProcessingUtils,
                       QgsProject, QgsVectorLayer)

sys.path.append(os.environ["QGIS_PLUGINPATH"])
from i_shape_qgis import algorithms  # noqa: E402

SPIKE = "MultiPolygon (((0 0, 4 0, 4 4, 4 9, 4 4, 0 0)))"
TRIANGLE, TURNED = "MultiPolygon (((0 0, 4 0, 4 4, 0 0)))", "MultiPolygon (((0 0, 4 4, 4 0, 0 0)))"
THIN = "MultiPolygon (((0 0, 0.125 0, 0.125 0.125, 0 0)))"
SQUARE = "MultiPolygon (((0 0, 8 0, 8 8, 0 8, 0 0)))"
EMPTY = "MultiPolygon EMPTY"
MIXED = ["", SPIKE, "", "", THIN, SQUARE, EMPTY, SPIKE, THIN, ""]


class LayersTest(unittest.TestCase):

    @classmethod
    def setUpClass(cls):
        cls.application = QgsApplication([], False)
        cls.application.initQgis()

    @classmethod
    def tearDownClass(cls):
        cls.application.exitQgis()

    def layer(self, texts, field="place"):
        """A layer of geometries, some of which may be none, with their places from 0 on as a field. Their FIDs count from 1."""
        layer = QgsVectorLayer(f"MultiPolygon?crs=EPSG:25833&field={field}:integer", "parcels", "memory")
        for place, text in enumerate(texts):
            its = QgsFeature(layer.fields())
            its.setAttributes([place])
            its.setGeometry(QgsGeometry.fromWkt(text))
            self.assertTrue(layer.dataProvider().addFeature(its))
        return QgsProject.instance().addMapLayer(layer)

    def run_over(self, layer, name, cancel_at=200, **choices):
        """What an algorithm returns, which is canceled at so many per cent, and the first field and the geometry of each feature that it gives."""
        context, feedback = QgsProcessingContext(), QgsProcessingFeedback()
        context.setProject(QgsProject.instance())
        feedback.progressChanged.connect(lambda its: its >= cancel_at and feedback.cancel())
        given = {"INPUT": layer.id(), "STEP": 0.5, "OUTPUT": "memory:", **choices}
        results = getattr(algorithms, name)().create().run(given, context, feedback, {}, False)[0]
        left = QgsProcessingUtils.mapLayerFromString(results.get("OUTPUT", ""), context)
        return results, left and [(its[0], its.geometry().asWkt()) for its in left.getFeatures()]

    def fault(self, *words, **choices):
        with self.assertRaises(QgsProcessingException) as raised:
            self.run_over(*words, **choices)
        return str(raised.exception)

    def test_places(self):
        """Features that are kept before, between and behind polygons move nothing, whether all are a block or each polygon ends one."""
        layer = self.layer(MIXED)
        for largest in algorithms._LARGEST, 1:
            with self.subTest(largest=largest), mock.patch.object(algorithms, "_LARGEST", largest):
                left = [(0, ""), (1, TRIANGLE), (2, ""), (3, ""), (5, SQUARE), (6, EMPTY), (7, TRIANGLE), (9, "")]
                self.assertEqual(self.run_over(layer, "Despike", COLLAPSED="drop")[1], left)
                self.assertEqual(self.run_over(layer, "Despike", COLLAPSED="drop", OTHERS="drop")[1], [its for its in left if its[1]])
                self.assertEqual(self.run_over(layer, "Duplicates")[1], [*enumerate(MIXED[:7]), (8, THIN), (9, "")])
                self.assertEqual([fid for fid, _ in self.run_over(layer, "Validity")[1]], [2, 5, 8, 9])
                self.assertIn("nothing is left of 2 of 6 features, of fid 5 first", self.fault(layer, "Despike"))
                self.assertIn("fid 2, polygon 0, ring 0, point 1: x is 4.0", self.fault(layer, "Despike", STEP=1e-20))

    def test_oriented(self):
        for is_oriented in False, True:
            left = [(0, TRIANGLE), (1, TURNED if is_oriented else TRIANGLE)]
            self.assertEqual(self.run_over(self.layer([TRIANGLE, TURNED]), "Canonical", ORIENTED=is_oriented)[1], left)

    def test_measures(self):
        """They aren't dropped."""
        layer = self.layer(["PolygonM ((0 0 1, 4 0 1, 4 4 1, 0 0 1))"])
        self.assertIn("fid 1: QGIS would drop the heights or measures of a PolygonM", self.fault(layer, "Despike", OTHERS="keep"))

    def test_ended(self):
        """A cancel returns nothing. It leaves no file before all is read, and part of one after that. A feature that can't be written is an error."""
        layer = self.layer(MIXED, "fid")
        with tempfile.TemporaryDirectory() as folder:
            for name, cancel_at, count in ("whole", 200, 10), ("read", 50, None), ("written", 91, 2):
                out = os.path.join(folder, f"{name}.gpkg")
                results = self.run_over(layer, "Despike", cancel_at, COLLAPSED="empty", OUTPUT=out)[0]
                self.assertEqual("OUTPUT" in results, name == "whole")
                self.assertEqual(QgsVectorLayer(out).featureCount() if os.path.exists(out) else None, count)
            layer.dataProvider().changeAttributeValues({3: {0: 1}})  # a FID twice
            self.assertIn("Could not write feature into OUTPUT", self.fault(layer, "Despike", COLLAPSED="empty", OUTPUT=os.path.join(folder, "twice.gpkg")))
