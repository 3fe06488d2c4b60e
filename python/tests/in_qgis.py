"""Runs algorithms of the plugin in QGIS without a window: `in_qgis.py PLUGINS RUNS RESULTS`, each run and each result as JSON.

A run is an algorithm, its parameters, and after how many told steps it is cancelled, null for never.
"""

import json
import os
import sys

from qgis.core import QgsApplication, QgsProcessingContext, QgsProcessingFeedback, QgsProcessingException

plugins, runs, results = sys.argv[1:]
sys.path.insert(0, plugins)
application = QgsApplication([], False)
application.initQgis()

from mosaic_drainage.provider import Provider  # noqa: E402

provider = Provider()
registry = QgsApplication.processingRegistry()
registry.addProvider(provider)


class Feedback(QgsProcessingFeedback):
    """Cancels itself after some steps of progress; keeps their messages."""

    def __init__(self, cancelled_after):
        super().__init__(False)
        self.told, self.left = [], cancelled_after
        self.tell()

    def setProgress(self, progress):
        self.told.append(progress)
        self.tell()

    def tell(self):
        if self.left is not None:
            self.left -= 1
            if self.left < 0:
                self.cancel()


def run(algorithm, parameters, cancelled_after):
    feedback, context = Feedback(cancelled_after), QgsProcessingContext()
    try:
        answer, is_ok = registry.algorithmById(f"mosaic:{algorithm}").create().run(parameters, context, feedback, {}, False)
    except QgsProcessingException as fault:
        return {"error": str(fault)}
    return {"answer": answer, "ok": is_ok, "told": len(feedback.told)}


with open(runs) as file:
    told = [run(*each) for each in json.load(file)]
with open(results, "w") as file:
    json.dump([[each.name() for each in provider.algorithms()], *told], file)
file.close()
os._exit(0)  # QGIS may end by a signal where Python takes it down
