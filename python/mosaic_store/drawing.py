"""Pictures of a window: shaded heights with degrees and a scale, on them a watershed, standing water, paths and roads.

They need numpy and matplotlib.
"""

from __future__ import annotations

import math
from collections.abc import Sequence
from dataclasses import dataclass, field
from typing import TYPE_CHECKING, Any

from . import shading
from .errors import BadArgument
from .geojson import square_kilometres
from .ellipsoid import degree
from .lattice import Point, degrees_of
from .questions import Watershed
from .rasters import Heights
from .samples import cure_for, needed_numpy
from .shading import DEEP, NO_DATA, TINTS, WATERSHED

if TYPE_CHECKING:
    from .samples import Array

FORMS = (".png", ".svg", ".pdf")
"""The endings of the names of pictures."""

ROAD = "#202020"
PATH = "#1050c0"

_WATERSHED_SHARE = 0.45
_DOTS_AN_INCH = 120
_INCHES = 8.0
_SCALE_SHARE = 0.25


@dataclass
class Scene:
    """What a picture shows."""

    heights: Heights
    title: str
    watershed: Watershed | None = None
    outlet: Point | None = None
    depths: Array | None = None
    """Of standing water, in metres, of the heights' shape."""
    path: Sequence[Point] = field(default_factory=list)
    road: Sequence[Point] = field(default_factory=list)
    road_name: str = "road"
    """What the legend calls it."""

    @property
    def extent(self) -> tuple[float, float, float, float]:
        """West, east, south and north of its cells, in degrees."""
        half, reach = self.heights.every / 2, self.heights.side - 1
        ys, xs = self.heights.ys, self.heights.xs
        edges = (xs[0] - half, xs[-1] + half, ys[-1] - half, ys[0] + half)
        west, east, south, north = (float(edge) / reach for edge in edges)
        return west, east, south, north

    @property
    def degree(self) -> tuple[float, float]:
        """How many metres a degree has in its middle, to the north and to the east."""
        _, _, south, north = self.extent
        return degree(max(-89.0, min(89.0, (south + north) / 2)))

    @property
    def narrowing(self) -> float:
        """How much shorter a degree is eastwards than northwards, in its middle."""
        return self.degree[1] / self.degree[0]


def draw(scene: Scene, path: str) -> None:
    """Writes a picture; the ending of its name is the format (.png, .svg, .pdf)."""
    pyplot = needed_matplotlib()
    west, east, south, north = scene.extent
    wide, high = (east - west) * scene.narrowing, north - south
    scale = _INCHES / max(wide, high)
    size = max(4.5, wide * scale + 2.2), max(3.5, high * scale + 1.6)
    figure, axes = pyplot.subplots(figsize=size)
    try:
        axes.imshow(colours_of(scene), extent=scene.extent, aspect=1 / scene.narrowing, interpolation="nearest")
        axes.set_autoscale_on(False)
        _draw_lines(axes, scene)
        _draw_scale(axes, scene)
        _draw_degrees(axes)
        axes.set_title(scene.title, fontsize=10, parse_math=False)
        _draw_heights(figure, axes, scene)
        _draw_legend(axes, scene)
        figure.savefig(path, dpi=_DOTS_AN_INCH, bbox_inches="tight", pad_inches=0.15)
    finally:
        pyplot.close(figure)


def colours_of(scene: Scene) -> Array:
    """The colours of the picture's points, uint8 of shape (rows, columns, 4); clear outside the tiles."""
    numpy = needed_numpy()
    heights = scene.heights
    low, high = range_of(heights)
    north, east = (metres / (heights.side - 1) * heights.every for metres in scene.degree)
    ringed = numpy.pad(heights.samples, 1, mode="edge")
    colours = shading.relief(ringed, low, high, east, north)
    if scene.watershed is not None:
        covered = cover_of(scene.watershed, heights) & heights.ground
        colours[covered] = colours[covered] * (1 - _WATERSHED_SHARE) + numpy.array(WATERSHED) * _WATERSHED_SHARE
    if scene.depths is not None and scene.depths.max() > 0:
        wet = scene.depths > 0
        colours[wet] = shading.water(scene.depths[wet], scene.depths.max())
    clear = numpy.where(heights.held, 255, 0)[..., None]
    return numpy.concatenate([colours.round().clip(0, 255), clear], axis=-1).astype(numpy.uint8)


def cover_of(watershed: Watershed, heights: Heights) -> Array:
    """Whether each point of the heights is in a watershed: bool of their shape."""
    numpy = needed_numpy()
    covered = numpy.zeros(heights.samples.shape, bool)
    window, every = heights.window, heights.every
    for y, first, last in watershed.runs:
        row, rest = divmod(window.y1 - y, every)
        if rest or not window.y0 <= y <= window.y1:
            continue
        start, end = -((window.x0 - first) // every), (last - window.x0) // every + 1
        covered[row, max(0, start) : max(0, end)] = True
    return covered


def range_of(heights: Heights) -> tuple[int, int]:
    """The least and the greatest height in metres; 0 and 0 if there is none."""
    ground = heights.samples[heights.ground]
    return (int(ground.min()), int(ground.max())) if ground.size else (0, 0)


def needed_matplotlib() -> Any:
    """matplotlib's pyplot, or one line that says how to install it."""
    try:
        import matplotlib

        matplotlib.use("Agg")
        import matplotlib.pyplot
    except ImportError as fault:
        raise BadArgument(f"pictures need matplotlib ({fault}): {cure_for('matplotlib')}") from None
    return matplotlib.pyplot


def _draw_lines(axes: Any, scene: Scene) -> None:
    side = scene.heights.side
    if scene.path:
        axes.plot(*_line(scene.path, side), color=PATH, linewidth=1.6, label=f"flow path, {len(scene.path):,} points")
    if scene.road:
        axes.plot(*_line(scene.road, side), color="white", linewidth=4.0, solid_capstyle="butt")
        axes.plot(*_line(scene.road, side), color=ROAD, linewidth=2.2, solid_capstyle="butt", label=scene.road_name)
    if scene.outlet is not None:
        place = degrees_of(scene.outlet, side)
        style = {"marker": "o", "markersize": 7, "markeredgecolor": "black", "linestyle": "none"}
        axes.plot([place.longitude], [place.latitude], color="yellow", label="outlet", **style)


def _line(points: Sequence[Point], side: int) -> tuple[list[float], list[float]]:
    places = [degrees_of(point, side) for point in points]
    return [place.longitude for place in places], [place.latitude for place in places]


def _draw_scale(axes: Any, scene: Scene) -> None:
    """A bar of a round number of metres, in the lower left."""
    west, east, south, north = scene.extent
    _, metres_a_degree = scene.degree
    length = _round_below((east - west) * metres_a_degree * _SCALE_SHARE)
    start, level, thick = west + (east - west) * 0.04, south + (north - south) * 0.045, (north - south) * 0.012
    for part, colour in enumerate(("black", "white")):
        half = length / metres_a_degree / 2
        box = (start + part * half, level), half, thick
        axes.add_patch(_patches().Rectangle(*box, facecolor=colour, edgecolor="black", linewidth=0.8, zorder=5))
    shown = f"{length / 1000:g} km" if length >= 1000 else f"{length:g} m"
    back = {"facecolor": "white", "alpha": 0.75, "edgecolor": "none", "pad": 1.5}
    place = start + length / metres_a_degree / 2, level + 2 * thick
    axes.text(*place, shown, ha="center", va="bottom", fontsize=8, bbox=back, zorder=6)


def _round_below(length: float) -> float:
    """The greatest of 1, 2, 5, 10, .. that isn't above a length."""
    power = 10.0 ** math.floor(math.log10(length))
    return max(step * power for step in (1, 2, 5) if step * power <= length)


def _draw_degrees(axes: Any) -> None:
    axes.xaxis.set_major_formatter(lambda value, _: _degree(value, "E", "W"))
    axes.yaxis.set_major_formatter(lambda value, _: _degree(value, "N", "S"))
    axes.locator_params(nbins=5)
    axes.tick_params(labelsize=8)


def _degree(value: float, above: str, below: str) -> str:
    return f"{abs(round(value, 6)):g}° {below if value < 0 else above}"


def _draw_heights(figure: Any, axes: Any, scene: Scene) -> None:
    """The legend of the heights' colours, next to the picture."""
    import matplotlib.cm
    import matplotlib.colors

    low, high = range_of(scene.heights)
    tints = [tuple(part / 255 for part in tint) for tint in TINTS]
    colours = matplotlib.colors.LinearSegmentedColormap.from_list("heights", tints)
    scale = matplotlib.cm.ScalarMappable(matplotlib.colors.Normalize(low, max(high, low + 1)), colours)
    bar = figure.colorbar(scale, ax=axes, shrink=0.7, pad=0.02)
    bar.set_label("height in m", fontsize=8)
    bar.ax.tick_params(labelsize=8)


def _draw_legend(axes: Any, scene: Scene) -> None:
    marks, names = axes.get_legend_handles_labels()
    if scene.watershed is not None:
        marks.append(_patches().Patch(color=_hex(WATERSHED), alpha=0.7))
        names.append(f"watershed, {scene.watershed.cells:,} points ({_shown_area(scene)})")
    if scene.depths is not None and scene.depths.max() > 0:
        marks.append(_patches().Patch(color=_hex(DEEP)))
        names.append(f"standing water, at most {scene.depths.max()} m deep")
    if (~scene.heights.ground & scene.heights.held).any():
        marks.append(_patches().Patch(color=_hex(NO_DATA)))
        names.append("void")
    if names:
        axes.legend(marks, names, loc="upper center", bbox_to_anchor=(0.5, -0.07), ncols=2, fontsize=8, frameon=False)


def _shown_area(scene: Scene) -> str:
    """The area of the watershed, by latitude."""
    area = 0.0 if scene.watershed is None else square_kilometres(scene.watershed.runs, scene.heights.side)
    return f"{area:,.0f} km²" if area >= 100 else f"{area:.3g} km²"


def _patches() -> Any:
    import matplotlib.patches

    return matplotlib.patches


def _hex(colour: tuple[int, int, int]) -> str:
    return "#" + bytes(colour).hex()
