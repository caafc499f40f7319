"""The step that a dialog suggests for a layer, which the user may change."""

from __future__ import annotations

import math

from processing.gui.wrappers import WidgetWrapper
from processing.modeler.ModelerParametersDialog import ModelerParametersDialog
from processing.tools.dataobjects import createContext
from qgis.core import QgsProcessingUtils, QgsProperty, QgsVectorLayer
from qgis.gui import QgsGui
from qgis.PyQt.QtWidgets import QLineEdit

_DIGITS = 10  # of the greatest coordinate


def suggested_step(layer):
    """Return the layer's own precision, or a step by its extent.

    That is the power of ten at or above the greatest coordinate's size
    divided by 10**10, and None where the layer has no extent.
    """
    precision = layer.geometryOptions().geometryPrecision()
    if precision > 0:
        return precision
    its = layer.extent()
    size = 0.0 if its.isNull() else max(
        map(abs, (its.xMinimum(), its.xMaximum(), its.yMinimum(),
                  its.yMaximum())))
    if not (math.isfinite(size) and size > 0):
        return None
    return float(f"1e{math.ceil(math.log10(size)) - _DIGITS}")


class StepWidget(WidgetWrapper):
    """A line with the step. Another layer suggests another step, unless the
    user has typed one. A model's step may be one of its inputs, so there it
    is QGIS's own widget for numbers."""

    def __new__(cls, parameter, dialog, *places):
        if not isinstance(dialog, ModelerParametersDialog):
            return super().__new__(cls)
        its = QgsGui.processingGuiRegistry().createModelerParameterWidget(
            dialog.model, dialog.childId, parameter, dialog.context)
        its.setDialog(dialog)
        return its

    def createWidget(self):
        self._is_typed = False
        line = QLineEdit()
        line.setPlaceholderText("in the unit of the layer's coordinates")
        line.textEdited.connect(self._type)
        line.textChanged.connect(
            lambda: self.widgetValueHasChanged.emit(self))
        return line

    def _type(self):
        self._is_typed = True

    def postInitialize(self, wrappers):
        for wrapper in wrappers:
            if wrapper.parameterDefinition().name() == "INPUT":
                wrapper.widgetValueHasChanged.connect(self._suggest)
                self._suggest(wrapper)

    def _suggest(self, wrapper):
        value = wrapper.parameterValue()
        source = getattr(value, "source", value)
        if isinstance(source, QgsProperty):
            source = source.staticValue()
        context = createContext()  # it holds a layer that it loads
        layer = source
        if isinstance(source, str) and source:
            layer = QgsProcessingUtils.mapLayerFromString(source, context)
        if not self._is_typed and isinstance(layer, QgsVectorLayer):
            step = suggested_step(layer)
            self.widget.setText("" if step is None else repr(step))

    def setValue(self, value):
        self._is_typed = value is not None
        self.widget.setText("" if value is None else str(value))

    def value(self):
        try:
            return float(self.widget.text())
        except ValueError:
            return None
