"""The algorithms in Processing's toolbox."""

from qgis.core import QgsApplication, QgsProcessingProvider

from .algorithms import ALGORITHMS


class Provider(QgsProcessingProvider):
    """The group of the toolbox."""

    def id(self):
        return "mosaic"

    def name(self):
        return "Mosaic drainage"

    def loadAlgorithms(self):
        for algorithm in ALGORITHMS:
            self.addAlgorithm(algorithm())


class Plugin:
    """What QGIS begins and ends; without a window, as in qgis_process, it begins the provider alone."""

    def __init__(self):
        self._provider = None

    def initProcessing(self):
        self._provider = Provider()
        QgsApplication.processingRegistry().addProvider(self._provider)

    def initGui(self):
        self.initProcessing()

    def unload(self):
        QgsApplication.processingRegistry().removeProvider(self._provider)
