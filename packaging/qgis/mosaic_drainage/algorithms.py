"""Six algorithms: a window, a watershed, streams, catchments, a reservoir, and edits of a store's terrain.

Each tells how far it is, and ends where it is cancelled: edits are then taken back, and a long question's program is ended.
"""

import contextlib
import threading

from mosaic_store import MosaicError, lines
from mosaic_store.basins import Basins
from mosaic_store.commands.frame import extent_of, opened, window_given
from mosaic_store.commands.raster import LAYERS
from mosaic_store.errors import BadArgument
from mosaic_store.geojson import points_feature, watershed_feature
from mosaic_store.grids import write_grid
from mosaic_store.hydrology import most_over, reservoir, runs_of
from mosaic_store.network import network_of, stream_features
from mosaic_store.rasters import heights_of
from mosaic_store.snapping import FARTHEST, snapped
from qgis.core import (
    QgsCoordinateReferenceSystem,
    QgsFeature,
    QgsFeatureRequest,
    QgsField,
    QgsFields,
    QgsGeometry,
    QgsPointXY,
    QgsProcessing,
    QgsProcessingAlgorithm,
    QgsProcessingException,
    QgsProcessingOutputNumber,
    QgsProcessingParameterDefinition,
    QgsProcessingParameterEnum,
    QgsProcessingParameterExtent,
    QgsProcessingParameterFeatureSink,
    QgsProcessingParameterFeatureSource,
    QgsProcessingParameterField,
    QgsProcessingParameterFile,
    QgsProcessingParameterNumber,
    QgsProcessingParameterPoint,
    QgsProcessingParameterRasterDestination,
    QgsWkbTypes,
)
from qgis.PyQt.QtCore import QVariant

DEGREES = QgsCoordinateReferenceSystem("EPSG:4326")
SECONDS_BETWEEN_LOOKS = 0.2
WHOLE, BROKEN = QVariant.LongLong, QVariant.Double


class Cancelled(MosaicError):
    """The user has cancelled the algorithm."""


class Algorithm(QgsProcessingAlgorithm):
    """What all have in common: a store, the program, progress and cancel, faults in one line."""

    NAME = LABEL = HELP = ""
    EDITS = False

    def createInstance(self):
        return type(self)()

    def name(self):
        return self.NAME

    def displayName(self):
        return self.LABEL

    def shortHelpString(self):
        return self.HELP

    def initAlgorithm(self, config=None):
        self.addParameter(QgsProcessingParameterFile("STORE", "Store", fileFilter="All files (*)"))
        for own in self.parameters():
            (self.addOutput if isinstance(own, QgsProcessingOutputNumber) else self.addParameter)(own)
        program = QgsProcessingParameterFile("PROGRAM", "Program mosaic, where it isn't on PATH", optional=True, fileFilter="All files (*)")
        program.setFlags(program.flags() | QgsProcessingParameterDefinition.FlagAdvanced)
        self.addParameter(program)

    def parameters(self):
        """Its own parameters, and the numbers that it tells."""
        raise NotImplementedError

    def processAlgorithm(self, parameters, context, feedback):
        asked = Asked(self, parameters, context, feedback)
        try:
            with opened(asked.file("STORE"), asked.file("PROGRAM") or None, edits=self.EDITS) as session, asked.watched(session, self.EDITS):
                return self.answer(session, asked)
        except (MosaicError, ValueError) as fault:
            if feedback.isCanceled():
                return {}
            raise QgsProcessingException(str(fault)) from None

    def answer(self, session, asked):
        """What it makes of a store."""
        raise NotImplementedError


class Asked:
    """The parameters of a run."""

    def __init__(self, algorithm, parameters, context, feedback):
        self.algorithm, self.parameters, self.context, self.feedback = algorithm, parameters, context, feedback

    def file(self, name):
        return self.algorithm.parameterAsFile(self.parameters, name, self.context)

    def whole(self, name):
        return self.algorithm.parameterAsInt(self.parameters, name, self.context)

    def point(self, name, session):
        """The point of the lattice nearest to a place."""
        place = self.algorithm.parameterAsPoint(self.parameters, name, self.context, DEGREES)
        return session.point_of(place.y(), place.x())

    def window(self, session):
        """The window of an extent; None without one."""
        box = self.algorithm.parameterAsExtent(self.parameters, "WINDOW", self.context, DEGREES)
        ends = (box.yMinimum(), box.xMinimum(), box.yMaximum(), box.xMaximum())
        return None if box.isNull() else window_given(ends, session, False)

    def features(self, name):
        """The features of a source, in degrees."""
        source = self.algorithm.parameterAsSource(self.parameters, name, self.context)
        if source is None:
            raise BadArgument(f"{name} isn't a layer of features")
        for feature in source.getFeatures(QgsFeatureRequest().setDestinationCrs(DEGREES, self.context.transformContext())):
            self.check()
            yield feature

    def lines(self, name, session):
        """Each line of a source with its feature, as points of the lattice, gaps filled."""
        for feature in self.features(name):
            geometry = feature.geometry()
            for line in geometry.asMultiPolyline() if geometry.isMultipart() else [geometry.asPolyline()]:
                yield feature, lines.points_along([session.point_of(corner.y(), corner.x()) for corner in line])

    def told(self, done, total):
        """Tells how far a long answer is, and ends it where it is cancelled."""
        self.feedback.setProgress(100 * done / max(1, total))
        self.check()

    def check(self):
        if self.feedback.isCanceled():
            raise Cancelled("cancelled")

    @contextlib.contextmanager
    def watched(self, session, edits):
        """Ends a question to the program where it is cancelled meanwhile. An edit goes on: it is taken back behind it."""
        done, thread = threading.Event(), threading.get_ident()

        def watch():
            while not done.wait(SECONDS_BETWEEN_LOOKS):
                if self.feedback.isCanceled():
                    session.interrupt(thread)

        if not edits:
            threading.Thread(target=watch, daemon=True).start()
        try:
            yield
        finally:
            done.set()

    def sink(self, name, fields, kind):
        """Where features go, and what names them."""
        columns = QgsFields()
        for field, form in fields.items():
            columns.append(QgsField(field, form))
        return self.algorithm.parameterAsSink(self.parameters, name, self.context, columns, kind, DEGREES)

    def written(self, name, fields, kind, features):
        """Writes features as GeoJSON has them; what names them."""
        sink, made = self.sink(name, fields, kind)
        for feature in features:
            self.check()
            row = QgsFeature()
            row.setGeometry(geometry_of(feature["geometry"]))
            row.setAttributes([feature["properties"].get(field) for field in fields])
            sink.addFeature(row)
        return made


def geometry_of(geometry):
    if geometry["type"] == "LineString":
        return QgsGeometry.fromPolylineXY([QgsPointXY(*place) for place in geometry["coordinates"]])
    return QgsGeometry.fromMultiPolygonXY([[[QgsPointXY(*place) for place in ring] for ring in part] for part in geometry["coordinates"]])


def whole_number(name, label, least, most, otherwise=None):
    return QgsProcessingParameterNumber(name, label, QgsProcessingParameterNumber.Integer, otherwise, False, least, most)


def accumulation(session, heights, told):
    """How many points drain through each of a window; 0 where there is no ground."""
    return network_of(session, heights.window, told).counts.astype("uint32"), 0


class WindowOf(Algorithm):
    NAME, LABEL = "window", "Window of a store"
    HELP = "Heights, filled levels and depths of standing water in metres, direction codes, or how many points drain through each."
    WHAT = LAYERS | {"accumulation": accumulation}

    def parameters(self):
        return [
            QgsProcessingParameterEnum("WHAT", "What", list(self.WHAT), defaultValue=1),
            QgsProcessingParameterExtent("WINDOW", "Window"),
            QgsProcessingParameterRasterDestination("RASTER", "Raster"),
        ]

    def answer(self, session, asked):
        what = list(self.WHAT)[self.parameterAsEnum(asked.parameters, "WHAT", asked.context)]
        window, made = asked.window(session), self.parameterAsOutputLayer(asked.parameters, "RASTER", asked.context)
        array, nothing = self.WHAT[what](session, heights_of(session, window), asked.told)
        write_grid(made, array, window, session.side, nothing, what)
        return {"RASTER": made}


class WatershedAt(Algorithm):
    NAME, LABEL = "watershed", "Watershed of a place"
    HELP = "The cells that drain to a place, which may be moved to the stream within some steps."
    FIELDS = {"y": WHOLE, "x": WHOLE, "latitude": BROKEN, "longitude": BROKEN, "cells": WHOLE, "km2": BROKEN}

    def parameters(self):
        return [
            QgsProcessingParameterPoint("PLACE", "Outlet"),
            whole_number("SNAP", "Steps to the stream", 0, FARTHEST, 5),
            QgsProcessingParameterFeatureSink("WATERSHED", "Watershed", QgsProcessing.TypeVectorPolygon),
            QgsProcessingOutputNumber("CELLS", "Cells"),
            QgsProcessingOutputNumber("KM2", "Area in km²"),
        ]

    def answer(self, session, asked):
        point = asked.point("PLACE", session)
        outlet = snapped(session, point, asked.whole("SNAP")) if asked.whole("SNAP") else point
        feature = watershed_feature(session.watershed(*outlet), outlet, session.side)
        made = asked.written("WATERSHED", self.FIELDS, QgsWkbTypes.MultiPolygon, [feature])
        return {"WATERSHED": made, "CELLS": feature["properties"]["cells"], "KM2": feature["properties"]["km2"]}


class StreamsOf(Algorithm):
    NAME, LABEL = "streams", "Streams of a window"
    HELP = "What so many points and more drain through, by reaches with Strahler's order. Of all tiles without a window: then each reach has an id, and that of the next one."
    FIELDS = {"id": WHOLE, "next": WHOLE, "order": WHOLE, "length_m": BROKEN, "points": WHOLE, "km2": BROKEN}

    def parameters(self):
        return [
            QgsProcessingParameterExtent("WINDOW", "Window", optional=True),
            whole_number("THRESHOLD", "Points from which a stream begins", 1, 2**31 - 1, 1000),
            QgsProcessingParameterFeatureSink("STREAMS", "Streams", QgsProcessing.TypeVectorLine),
        ]

    def answer(self, session, asked):
        threshold, window = asked.whole("THRESHOLD"), asked.window(session)
        if window is None:
            features = Basins(session, asked.told).stream_features(threshold)
        else:
            features = stream_features(network_of(session, window, asked.told), threshold)
        return {"STREAMS": asked.written("STREAMS", self.FIELDS, QgsWkbTypes.LineString, features)}


class CatchmentsOf(Algorithm):
    NAME, LABEL = "catchments", "Catchments of outlets"
    HELP = "The cells that drain to each outlet and to no other one before it: nested, and never cut. Outlets are moved to the stream within some steps; of several at one point the first counts."
    FIELDS = {"outlet": WHOLE, "id": WHOLE, "next": WHOLE, "y": WHOLE, "x": WHOLE, "cells": WHOLE, "km2": BROKEN, "drained_points": WHOLE, "drained_km2": BROKEN}

    def parameters(self):
        return [
            QgsProcessingParameterFeatureSource("OUTLETS", "Outlets", [QgsProcessing.TypeVectorPoint]),
            whole_number("REACH", "Steps to the stream", 0, 1000, 5),
            whole_number("THRESHOLD", "Points from which a stream begins", 1, 2**31 - 1, 1000),
            QgsProcessingParameterFeatureSink("CATCHMENTS", "Catchments", QgsProcessing.TypeVectorPolygon),
        ]

    def answer(self, session, asked):
        basins, outlets = Basins(session, asked.told), {}
        for feature in asked.features("OUTLETS"):
            place = feature.geometry().vertexAt(0)
            point = session.point_of(place.y(), place.x())
            if asked.whole("REACH"):
                point = basins.snapped(point, asked.whole("REACH"), asked.whole("THRESHOLD"))
            outlets.setdefault(point, feature.id())
        if not outlets:
            raise BadArgument("the outlets are points, one at least")
        features = []
        for number, (point, outlet, found) in enumerate(zip(outlets, outlets.values(), basins.catchments(list(outlets))), 1):
            told = {"outlet": outlet, "id": number, "next": found.following + 1 or None, "y": point.y, "x": point.x, "cells": found.cells}
            drained = {"drained_points": found.drained, "drained_km2": round(found.drained_area / 1e6, 4)}
            features.append(points_feature(found.runs, session.side, told | drained))
        return {"CATCHMENTS": asked.written("CATCHMENTS", self.FIELDS, QgsWkbTypes.MultiPolygon, features)}


class ReservoirBehind(Algorithm):
    NAME, LABEL = "reservoir", "Reservoir behind a dam"
    HELP = "What a dam along a line holds back before a place: the full reservoir, and its area and volume by level. Nothing is edited."
    FIELDS = {"level_m": WHOLE, "cells": WHOLE, "km2": BROKEN}
    STAGES = {"level_m": WHOLE, "area_km2": BROKEN, "volume_m3": BROKEN}

    def parameters(self):
        return [
            QgsProcessingParameterFeatureSource("DAM", "Dam", [QgsProcessing.TypeVectorLine]),
            whole_number("CREST", "Height of the crest in metres", -32767, 32767),
            QgsProcessingParameterPoint("BEFORE", "A place before the dam, where water gathers"),
            QgsProcessingParameterExtent("WINDOW", "Window that holds the reservoir", optional=True),
            QgsProcessingParameterFeatureSink("RESERVOIR", "Reservoir", QgsProcessing.TypeVectorPolygon),
            QgsProcessingParameterFeatureSink("STAGES", "Area and volume by level", QgsProcessing.TypeVector),
            QgsProcessingOutputNumber("SPILLS_AT", "Level at which it spills, in metres"),
            QgsProcessingOutputNumber("VOLUME", "Volume in cubic metres"),
        ]

    def answer(self, session, asked):
        dam = [point for _, line in asked.lines("DAM", session) for point in line]
        window = asked.window(session) or extent_of(session)
        found = reservoir(session, window, dam, asked.whole("CREST"), asked.point("BEFORE", session), asked.file("PROGRAM") or None)
        runs = runs_of(found.depths > 0, window)
        cells = sum(run.last - run.first + 1 for run in runs)
        full = points_feature(runs, session.side, {"level_m": found.spills_at, "cells": cells})
        made = asked.written("RESERVOIR", self.FIELDS, QgsWkbTypes.MultiPolygon, [full])
        sink, stages = asked.sink("STAGES", self.STAGES, QgsWkbTypes.NoGeometry)
        for stage in found.stages:
            row = QgsFeature()
            row.setAttributes([stage.level, round(stage.area / 1e6, 6), round(stage.volume)])
            sink.addFeature(row)
        return {"RESERVOIR": made, "STAGES": stages, "SPILLS_AT": found.spills_at, "VOLUME": found.stages[-1].volume}


class EditOf(Algorithm):
    NAME, LABEL, EDITS = "edit", "Edit the terrain of a store", True
    HELP = "Raises lines to a height, as roads and dams, or lowers them by a depth, as culverts and streams: all of them, or none where one is refused or it is cancelled. Where lines cross, the most metres count."

    def parameters(self):
        return [
            QgsProcessingParameterFeatureSource("LINES", "Lines", [QgsProcessing.TypeVectorLine]),
            QgsProcessingParameterEnum("KIND", "What is done", ["raise to", "lower by"], defaultValue=0),
            whole_number("METRES", "Metres", -32767, 32767),
            QgsProcessingParameterField("FIELD", "Metres of each line, where it has any", None, "LINES", QgsProcessingParameterField.Numeric, optional=True),
            whole_number("WIDTH", "Width in points, odd", 1, 99, 1),
            QgsProcessingOutputNumber("POINTS", "Points that were edited"),
            QgsProcessingOutputNumber("COUNT", "Commands that the store counts"),
        ]

    def answer(self, session, asked):
        act = (session.wall, session.burn)[self.parameterAsEnum(asked.parameters, "KIND", asked.context)]
        field = self.parameterAsString(asked.parameters, "FIELD", asked.context)
        drawn = []
        for feature, line in asked.lines("LINES", session):
            own = feature[field] if field else None
            metres = asked.whole("METRES") if own is None or own == QVariant() else own
            if metres != int(metres):
                raise BadArgument(f"{field} is a whole number of metres, not {metres}")
            drawn.append((line, int(metres)))
        amounts = most_over(drawn, asked.whole("WIDTH"))
        parts = [(metres, part) for metres in sorted(set(amounts.values())) for part in lines.commands([at for at, own in amounts.items() if own == metres])]
        with session.trial() as trial:
            for number, (metres, part) in enumerate(parts, 1):
                asked.told(number, len(parts))
                act(metres, part)
            trial.keep()
        while session.step() is not None:
            pass
        return {"POINTS": len(amounts), "COUNT": session.count()}


ALGORITHMS = (WindowOf, WatershedAt, StreamsOf, CatchmentsOf, ReservoirBehind, EditOf)
