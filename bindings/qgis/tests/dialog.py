#!/usr/bin/env python3
"""Opens the dialog of an algorithm without a screen, and looks at the step that it suggests: by the extent, by the layer's own precision, and one that a user
has typed; and in a model at a step that is an input. With a file's name it draws the dialog into that.

usage: dialog.py [FILE.png]
"""
import os
import sys

sys.path.append("/usr/share/qgis/python/plugins")
sys.path.append(os.environ["QGIS_PLUGINPATH"])
from qgis.core import (QgsApplication, QgsFeature, QgsGeometry, QgsProcessingModelAlgorithm, QgsProcessingModelChildAlgorithm,  # noqa: E402
                       QgsProcessingModelChildParameterSource, QgsProcessingModelParameter, QgsProcessingParameterNumber, QgsProject, QgsVectorLayer)
from qgis.PyQt.QtTest import QTest  # noqa: E402


def layer(system, text, precision=0.0):
    its = QgsVectorLayer(f"Polygon?crs={system}", f"parcels in {system}", "memory")
    one = QgsFeature()
    one.setGeometry(QgsGeometry.fromWkt(text))
    its.dataProvider().addFeature(one)
    its.updateExtents()
    its.geometryOptions().setGeometryPrecision(precision)
    return QgsProject.instance().addMapLayer(its)


def model_step(source):
    """Where the step of an algorithm in a model comes from, once its dialog has been opened and accepted."""
    from processing.modeler.ModelerParametersDialog import ModelerParametersDialog
    model, child = QgsProcessingModelAlgorithm(), QgsProcessingModelChildAlgorithm("i_shape:simplify")
    model.addModelParameter(QgsProcessingParameterNumber("grid", "grid"), QgsProcessingModelParameter("grid"))
    child.setChildId("clean")
    child.addParameterSources("STEP", [source])
    model.addChildAlgorithm(child)
    dialog = ModelerParametersDialog(child.algorithm(), model, "clean")
    dialog.setPreviousValues()
    return dialog.createAlgorithm().parameterSources()["STEP"]


def main():
    application = QgsApplication([], True)
    application.initQgis()
    from processing.core.Processing import Processing
    from processing.gui.AlgorithmDialog import AlgorithmDialog
    from processing.tools.dataobjects import createContext
    from i_shape_qgis import classFactory
    Processing.initialize()
    plugin = classFactory(None)
    plugin.initProcessing()
    degrees = layer("EPSG:4326", "POLYGON((13 52, 14 52, 14 53, 13 52))")
    metres = layer("EPSG:25833", "POLYGON((400000 5800000, 400100 5800000, 400100 5800100, 400000 5800000))")
    precise = layer("EPSG:3857", "POLYGON((0 0, 4 0, 4 4, 0 0))", 0.25)
    dialog = AlgorithmDialog(application.processingRegistry().createAlgorithmById("i_shape:simplify"))
    wrappers = dialog.mainWidget().wrappers
    context = createContext()
    line = wrappers["STEP"].widget

    def suggested(of):
        wrappers["INPUT"].setParameterValue(of.id(), context)
        return line.text()

    found = [suggested(precise), suggested(metres), suggested(degrees)]
    assert found == ["0.25", "0.001", "1e-08"], found
    assert dialog.createProcessingParameters()["STEP"] == 1e-8
    if sys.argv[1:]:
        dialog.resize(1000, 700)
        dialog.show()
        application.processEvents()
        dialog.grab().save(sys.argv[1])
    line.clear()
    QTest.keyClicks(line, "0.5")
    assert suggested(metres) == "0.5"
    dialog.close()
    for source in QgsProcessingModelChildParameterSource.fromModelParameter("grid"), QgsProcessingModelChildParameterSource.fromStaticValue(0.5):
        assert model_step(source) == [source], source.source()
    plugin.unload()
    sys.stdout.flush()
    os._exit(0)  # what QGIS does at the end needs a desktop


if __name__ == "__main__":
    main()
