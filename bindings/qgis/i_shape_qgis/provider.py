"""The plugin, and the provider that it adds to Processing."""

from __future__ import annotations

from qgis.core import QgsApplication, QgsProcessingProvider

from .algorithms import ALGORITHMS


class Provider(QgsProcessingProvider):
    """The algorithms, under the name ``i_shape``."""

    def id(self):
        return "i_shape"

    def name(self):
        return "i_shape"

    def loadAlgorithms(self):
        for algorithm in ALGORITHMS:
            self.addAlgorithm(algorithm())


class Plugin:
    """What QGIS loads: with a window by initGui, and without one by
    initProcessing."""

    def __init__(self):
        self._provider = None

    def initProcessing(self):
        self._provider = Provider()
        QgsApplication.processingRegistry().addProvider(self._provider)

    def initGui(self):
        self.initProcessing()

    def unload(self):
        QgsApplication.processingRegistry().removeProvider(self._provider)
