"""A plugin of QGIS: what a store of elevation tiles answers, as algorithms of Processing."""

import importlib.util
import pathlib
import sys

if importlib.util.find_spec("mosaic_store") is None:  # a release's plugin brings the package along
    sys.path.append(str(pathlib.Path(__file__).parent))


def classFactory(iface):
    """What QGIS asks a plugin for."""
    from .provider import Plugin

    return Plugin()
