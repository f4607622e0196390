"""Paints a canvas of a project without the program, from the definitions.

It is written from the definitions of a view, of what a fill, a pen and a marker cover, and of how colours are
laid and merged, in whole numbers alone. It takes the form of all files for granted and knows no limits.
"""
import csv
import functools
import json
import math
import pathlib
import re
from fractions import Fraction
from typing import NamedTuple

CLEAR = (0, 0, 0, 0)
DELIMITERS = {"comma": ",", "semicolon": ";", "tab": "\t"}


# Numbers and views


def is_decimal(text):
    return re.fullmatch(r"[+-]?(\d+\.?\d*|\.\d+)([eE][+-]?\d+)?", text, re.A) is not None


def millionths(text):
    """A decimal, rounded half away from zero to whole millionths."""
    exact = Fraction(text.rstrip(".")) * 1_000_000
    size = math.floor(abs(exact) + Fraction(1, 2))
    return size if exact >= 0 else -size


def rounded(number, by):
    """A quotient, rounded to the nearest whole number, a half upwards."""
    return (2 * number + by) // (2 * by)


class View(NamedTuple):
    """The left and top edge in doubled millionths, the millionths to a pixel, and the size in pixels."""
    left: int
    top: int
    unit: int
    width: int
    height: int

    def x(self, column):
        return self.left + (2 * column + 1) * self.unit

    def y(self, row):
        return self.top - (2 * row + 1) * self.unit

    def columns(self, low, high):
        """The columns whose centres lie from one place to another."""
        first = -((self.left + self.unit - low) // (2 * self.unit))
        last = (high - self.left - self.unit) // (2 * self.unit)
        return range(max(0, first), min(self.width - 1, last) + 1)

    def rows(self, low, high):
        """The rows whose centres lie from one height to another."""
        first = -((high - self.top + self.unit) // (2 * self.unit))
        last = (self.top - self.unit - low) // (2 * self.unit)
        return range(max(0, first), min(self.height - 1, last) + 1)


def view_of(canvas):
    xmin, ymin, xmax, ymax = map(millionths, canvas["extent"])
    width, height = canvas["width"], canvas["height"]
    unit = max(1, -((xmin - xmax) // width), -((ymin - ymax) // height))
    return View(xmin + xmax - width * unit, ymin + ymax + height * unit, unit, width, height)


# Geometries and features


class Geometry(NamedTuple):
    """Points, lines and polygons, all in doubled millionths."""
    points: list
    lines: list
    polygons: list


def nested(text):
    """The brackets of a well-known text as lists: of points, of lists of points, and so on."""
    marks = re.sub(r"\s*([(),])\s*", r"\1", text)
    marks = re.sub(r"[^(),]+", lambda match: json.dumps(match[0]), marks)
    return json.loads("[" + marks.replace("(", "[").replace(")", "]") + "]")


def point_of(text):
    x, y = text.split()[:2]
    return 2 * millionths(x), 2 * millionths(y)


def points_of(listed):
    return [point_of(item[0] if isinstance(item, list) else item) for item in listed]


def members(text):
    """The single geometries of a text, those of a collection in turn: their words and what is in brackets."""
    text = text.split(";", 1)[-1].strip()
    word = re.match(r"[A-Za-z]+", text)[0].upper()
    if word.startswith("GEOMETRYCOLLECTION"):
        inner, depth, start = text[text.index("(") + 1:text.rindex(")")], 0, 0
        for at, mark in enumerate(inner + ","):
            depth += (mark == "(") - (mark == ")")
            if mark == "," and depth == 0:
                yield from members(inner[start:at])
                start = at + 1
    else:
        yield re.sub("(Z|M|ZM)$", "", word), nested(text[text.index("("):])[0]


def geometry_of(text):
    """The geometry of a cell; those that are refused or empty aren't expected, but for empty cells."""
    found = Geometry([], [], [])
    for word, parts in members(text) if text.strip() else ():
        if word in ("POINT", "MULTIPOINT"):
            found.points.extend(points_of(parts))
        elif word == "LINESTRING":
            found.lines.append(points_of(parts))
        elif word == "MULTILINESTRING":
            found.lines.extend(points_of(line) for line in parts)
        else:
            for rings in parts if word == "MULTIPOLYGON" else [parts]:
                found.polygons.append([points_of(ring) for ring in rings])
    return found


class Feature(NamedTuple):
    """An id, a geometry, and a text for each attribute column."""
    id: int
    geometry: Geometry
    values: tuple


class Table(NamedTuple):
    """The attribute columns of a text layer, and its features."""
    columns: tuple
    features: tuple


class Cells(NamedTuple):
    """A grid: columns and rows, left and bottom edge and a cell's sides in doubled millionths, and the cells'
    millionths from the north-west on, None where there is no data."""
    columns: int
    rows: int
    left: int
    bottom: int
    sides: tuple
    values: tuple


def table_of(path, delimiter, column):
    """The table of a delimited text; of columns of one name the first counts."""
    with open(path, encoding="utf-8-sig", newline="") as file:
        head, *records = [record for record in csv.reader(file, delimiter=delimiter) if record]
    at = head.index(column)
    found = (Feature(number, geometry_of(record[at]), tuple(record[:at] + record[at + 1:]))
             for number, record in enumerate(records, 1))
    return Table(tuple(head[:at] + head[at + 1:]), tuple(found))


def cells_of(path):
    """The cells of a grid's text."""
    words = pathlib.Path(path).read_text(encoding="utf-8-sig").split()
    count = next(at for at in range(0, len(words), 2)
                 if not words[at][0].isalpha() or words[at].lower() == "nan")
    head = {word.lower(): value for word, value in zip(words[:count:2], words[1:count:2])}
    sides = tuple(millionths(head.get("cellsize") or head[name]) for name in ("dx", "dy"))
    left, bottom = (2 * millionths(head[f"{axis}llcorner"]) if f"{axis}llcorner" in head
                    else 2 * millionths(head[f"{axis}llcenter"]) - side for axis, side in zip("xy", sides))
    void = head.get("nodata_value", "-9999")
    void = millionths(void) if is_decimal(void) else None

    @functools.cache
    def value(text):
        number = millionths(text) if is_decimal(text) else void
        return None if number == void else number

    cells = tuple(map(value, words[count:]))
    sides = tuple(2 * side for side in sides)
    return Cells(int(head["ncols"]), int(head["nrows"]), left, bottom, sides, cells)


def contents_of(source):
    """The table or the cells that a layer's source names."""
    if source["kind"] == "grid":
        return cells_of(source["file"])
    delimiter = DELIMITERS[source.get("delimiter", "comma")]
    return table_of(source["file"], delimiter, source.get("geometry", "wkt"))


# What is covered: each answers the places in a picture, row by row from the top left


def inside(polygon, view):
    """The pixels with an odd number of edges right of their centres."""
    flips = {}
    for ring in polygon:
        for (ax, ay), (bx, by) in zip(ring, ring[1:] + ring[:1]):
            for row in view.rows(min(ay, by), max(ay, by) - 1):
                over, by_height = (view.y(row) - ay) * (bx - ax), by - ay
                if by_height < 0:
                    over, by_height = -over, -by_height
                away = (ax - view.left - view.unit) * by_height + over
                count = -(-away // (2 * view.unit * by_height))
                flips.setdefault(row, []).append(min(max(count, 0), view.width))
    found = set()
    for row, counts in flips.items():
        counts.sort()
        for first, last in zip(counts[::2], counts[1::2]):
            found.update(range(row * view.width + first, row * view.width + last))
    return found


def near(segments, width, view):
    """The pixels whose square round the centre, as wide as the pen, meets a segment."""
    reach, found = width * view.unit, set()
    for (ax, ay), (bx, by) in segments:
        dx, dy = bx - ax, by - ay
        columns = view.columns(min(ax, bx) - reach, max(ax, bx) + reach)
        for row in view.rows(min(ay, by) - reach, max(ay, by) + reach):
            side = dx * (view.y(row) - ay)
            found.update(row * view.width + column for column in columns
                         if abs(side - dy * (view.x(column) - ax)) <= reach * (abs(dx) + abs(dy)))
    return found


DISTANCES = {
    "square": lambda dx, dy, reach: max(abs(dx), abs(dy)) <= reach,
    "diamond": lambda dx, dy, reach: abs(dx) + abs(dy) <= reach,
    "circle": lambda dx, dy, reach: dx * dx + dy * dy <= reach * reach,
}


def marked(points, marker, view):
    reach, is_hit, found = marker["size"] * view.unit, DISTANCES[marker["shape"]], set()
    for x, y in points:
        columns = view.columns(x - reach, x + reach)
        for row in view.rows(y - reach, y + reach):
            found.update(row * view.width + column for column in columns
                         if is_hit(view.x(column) - x, view.y(row) - y, reach))
    return found


# Styles


def colour_of(digits):
    return tuple(bytes.fromhex(digits if len(digits) == 8 else digits + "ff"))


def strokes(symbol, geometry, view):
    """The colours that a feature lays, the lowest first, each with the pixels that it covers."""
    if "fill" in symbol:
        yield symbol["fill"], set().union(*(inside(polygon, view) for polygon in geometry.polygons))
    if "pen" in symbol:
        rings = [ring for polygon in geometry.polygons for ring in polygon]
        sides = [side for ring in rings for side in zip(ring, ring[1:] + ring[:1])]
        parts = [part for line in geometry.lines for part in zip(line, line[1:] or line)]
        yield symbol["pen"]["colour"], near(sides, symbol["pen"]["width"], view)
        yield symbol["pen"]["colour"], near(parts, symbol["pen"]["width"], view)
    if "marker" in symbol:
        yield symbol["marker"]["colour"], marked(geometry.points, symbol["marker"], view)


def symbol_of(style, text):
    """The symbol of a feature whose attribute has this text, or None where it has none."""
    if style["kind"] == "single":
        return style["symbol"]
    if style["kind"] == "categorised":
        fitting = (one["symbol"] for one in style["classes"] if one["value"] == text)
        return next(fitting, style.get("fallback"))
    if text is None or not is_decimal(text):
        return None
    value = millionths(text)
    return next((one["symbol"] for one in style["classes"]
                 if millionths(one["lower"]) <= value <= millionths(one["upper"])), None)


def ramp_colour(kind, stops, value):
    """The colour of a value by stops that ascend."""
    if kind == "exact":
        return next((colour for stop, colour in stops if stop == value), CLEAR)
    above = next((at for at, (stop, _) in enumerate(stops) if value <= stop), len(stops))
    if kind == "discrete":
        return stops[above][1] if above < len(stops) else CLEAR
    if above == len(stops):
        return stops[-1][1]
    if above == 0:
        return stops[0][1]
    (low, below), (high, over) = stops[above - 1], stops[above]
    return tuple(rounded(one * (high - value) + other * (value - low), high - low)
                 for one, other in zip(below, over))


# Layers: each image is a dictionary of the pixels that aren't clear


@functools.cache
def over(source, backdrop):
    """A colour laid over another, by source-over."""
    alpha, rest = 255 * source[3], backdrop[3] * (255 - source[3])
    if alpha + rest == 0:
        return CLEAR
    channels = (rounded(alpha * one + rest * other, alpha + rest) for one, other in zip(source, backdrop))
    return (*list(channels)[:3], rounded(alpha + rest, 255))


def text_in(layer, column):
    """What gives the text of a layer's feature in a column, None where the layer hasn't that column."""
    columns = layer["contents"].columns if is_text(layer) else ()
    if column not in columns:
        return lambda feature: None
    at = columns.index(column)
    return lambda feature: feature.values[at]


def texts_of(layer, layers):
    """What gives the text of a feature's attribute that the style of a layer asks for."""
    style, join = layer["style"], layer.get("join")
    if style["kind"] == "single":
        return lambda feature: None
    if "field" in style:
        return text_in(layer, style["field"])
    other = layers.get(join["layer"]) if join else None
    if other is None:
        return lambda feature: None
    local, found = text_in(layer, join["local"]), {}
    key, text = text_in(other, join["key"]), text_in(other, style["joined"])
    for feature in features_in(other):
        if key(feature) is not None:
            found.setdefault(key(feature), text(feature))
    return lambda feature: found.get(local(feature))


def is_text(layer):
    return isinstance(layer["contents"], Table)


def features_in(layer):
    return layer["contents"].features if is_text(layer) else ()


def text_image(layer, layers, view):
    image, text = {}, texts_of(layer, layers)
    for feature in features_in(layer):
        symbol = symbol_of(layer["style"], text(feature))
        for colour, pixels in strokes(symbol, feature.geometry, view) if symbol else ():
            colour = colour_of(colour)
            for pixel in pixels:
                image[pixel] = over(colour, image.get(pixel, CLEAR))
    return image


def grid_image(layer, view):
    cells, style, image = layer["contents"], layer["style"], {}
    stops = [(millionths(stop["value"]), colour_of(stop["colour"])) for stop in style["stops"]]

    @functools.cache
    def colour(value):
        return CLEAR if value is None else ramp_colour(style["ramp"], stops, value)

    for row in range(view.height):
        cell_row = cells.rows - 1 - (view.y(row) - cells.bottom) // cells.sides[1]
        for column in range(view.width) if 0 <= cell_row < cells.rows else ():
            cell_column = (view.x(column) - cells.left) // cells.sides[0]
            if 0 <= cell_column < cells.columns:
                value = cells.values[cell_row * cells.columns + cell_column]
                image[row * view.width + column] = colour(value)
    return image


def layer_image(layer, layers, view):
    image = text_image(layer, layers, view) if is_text(layer) else grid_image(layer, view)
    mask = layers.get(layer.get("mask"))
    if mask:
        polygons = [polygon for feature in features_in(mask) for polygon in feature.geometry.polygons]
        shown = set().union(*(inside(polygon, view) for polygon in polygons))
        image = {pixel: colour for pixel, colour in image.items() if pixel in shown}
    return image


# The picture


def hard_light(below, above):
    if 2 * above <= 255:
        return rounded(2 * below * above, 255)
    twice = 2 * above - 255
    return rounded(255 * (below + twice) - below * twice, 255)


def dodge(below, above):
    if below == 0 or above == 255:
        return 0 if below == 0 else 255
    return min(255, rounded(255 * below, 255 - above))


def burn(below, above):
    if below == 255 or above == 0:
        return 255 if below == 255 else 0
    return 255 - min(255, rounded(255 * (255 - below), above))


MODES = {
    "normal": lambda below, above: above,
    "multiply": lambda below, above: rounded(below * above, 255),
    "screen": lambda below, above: rounded(255 * (below + above) - below * above, 255),
    "overlay": lambda below, above: hard_light(above, below),
    "darken": min,
    "lighten": max,
    "color-dodge": dodge,
    "color-burn": burn,
    "hard-light": hard_light,
    "difference": lambda below, above: abs(below - above),
    "exclusion": lambda below, above: rounded(255 * (below + above) - 2 * below * above, 255),
}


@functools.cache
def merged(picture, source, opacity, mode):
    """A picture's colour with a layer's merged onto it."""
    alpha = rounded(source[3] * opacity, 255)
    if mode == "addition":
        return tuple(min(255, below + rounded(alpha * above, 255)) for below, above in zip(picture, source))
    return tuple(rounded((255 - alpha) * below + alpha * MODES[mode](below, above), 255)
                 for below, above in zip(picture, source))


def is_slot(layer, view):
    scales = layer.get("scales", {})
    return (layer.get("visible", True)
            and millionths(scales.get("least", "0")) <= view.unit
            and view.unit <= millionths(scales.get("greatest", "1000000000")))


def slots_of(project, view):
    """The layers that a view shows, the lowest first."""
    return [layer for layer in reversed(project["layers"]) if is_slot(layer, view)]


def picture_of(project, view, shown=None):
    """The pixels of a project at a view; of its slots those that are listed, or all."""
    layers = {layer["id"]: layer for layer in project["layers"]}
    picture = [colour_of(project["background"])[:3]] * (view.width * view.height)
    for slot, layer in enumerate(slots_of(project, view)):
        if shown is None or slot in shown:
            opacity, mode = layer.get("opacity", 255), layer.get("blend", "normal")
            for pixel, colour in layer_image(layer, layers, view).items():
                picture[pixel] = merged(picture[pixel], colour, opacity, mode)
    return picture


def pixmap(view, picture):
    """A picture's bytes."""
    return b"P6\n%d %d\n255\n" % (view.width, view.height) + b"".join(map(bytes, picture))


# Projects


def present(fields):
    """The fields of an object of JSON that are there: null counts as absent."""
    return {name: value for name, value in fields.items() if value is not None}


def read_project(path):
    """The project of a file, with what its layers' sources name as their contents."""
    project = json.loads(pathlib.Path(path).read_text(), object_hook=present)
    for layer in project["layers"]:
        layer["contents"] = contents_of(layer["source"])
    return project
