"""Plays a script on a project without the program and without other callers, from the definitions.

What a journal says is asked of the journal: a cache's list, a job's end and its ready slots, the task that is
due and the verdict of an edit follow from the entries before. It takes the form of all files for granted, and
of the limits it knows those of layers, of an added layer's columns and of held tasks alone.
"""
import re
from typing import NamedTuple

from painting import Feature, Geometry, Table, geometry_of, millionths, picture_of, pixmap, slots_of, view_of

FRAME = {"opacity", "blend", "show", "hide", "move", "background", "set-scales"}
EDGE = 4 * 10 ** 15
MOST = 10 ** 15


# Scripts


class Command(NamedTuple):
    line: int
    words: list


def commands_of(text):
    """The commands of a script, each with the number of its line."""
    found = []
    for line, words in enumerate(text.split("\n"), 1):
        words = words.removesuffix("\r")
        if words.strip(" \t\r\v\f") and words.lstrip(" \t\r\v\f")[0] != "#":
            parts = re.findall(r'"((?:[^"]|"")*)"|([^ \t"]+)', words)
            found.append(Command(line, [quoted.replace('""', '"') or plain for quoted, plain in parts]))
    return found


# Views


def is_view(view):
    right = view.left + 2 * view.width * view.unit
    edges = (view.left, right, view.top, view.top - 2 * view.height * view.unit)
    return all(abs(edge) <= EDGE for edge in edges)


def panned(view, dx, dy):
    return view._replace(left=view.left + 2 * dx * view.unit, top=view.top - 2 * dy * view.unit)


def zoomed(view, number, by):
    unit = max(1, -(-view.unit * number // by))
    return view._replace(left=view.left + view.width * view.unit - view.width * unit,
                         top=view.top - view.height * view.unit + view.height * unit, unit=unit)


def is_pan(view, before):
    side = 2 * before.unit
    return (view[2:] == before[2:] and (view.left - before.left) % side == 0
            and (view.top - before.top) % side == 0)


# Edits: each answers the project behind it, or the word of its refusal


def decimal(text):
    return None if text.lower().lstrip("+-") == "nan" else max(-MOST, min(MOST, millionths(text)))


def is_table(layer):
    return isinstance(layer["contents"], Table)


def symbol_of_words(words):
    symbol, words = {}, list(words)
    while words:
        part = words.pop(0)
        if part == "fill":
            symbol["fill"] = words.pop(0)
        elif part == "pen":
            symbol["pen"] = {"colour": words.pop(0), "width": int(words.pop(0))}
        else:
            symbol["marker"] = dict(zip(("shape", "colour", "size"), words[:3]))
            symbol["marker"]["size"] = int(symbol["marker"]["size"])
            words = words[3:]
    return symbol


def with_features(layer, features):
    return {**layer, "contents": layer["contents"]._replace(features=tuple(features))}


def place_of(layer, feature):
    return next((at for at, one in enumerate(layer["contents"].features) if one.id == feature), None)


def data_edit(name, layer, words):
    """An edit of features or cells."""
    if name == "set-cell":
        return cell_edit(layer, *words)
    wants = name in ("remove-feature", "set-geometry", "set-attribute")
    at = int(words[0]) if name == "insert-feature" else None
    feature = int(words[1 if at is not None else 0])
    place = place_of(layer, feature) if is_table(layer) else None
    if is_table(layer) and wants and place is None:
        return "unknown-feature"
    if not is_table(layer):
        return "wrong-kind"
    features, columns = list(layer["contents"].features), layer["contents"].columns
    if not wants:
        if place is not None:
            return "duplicate-id"
        text, *values = words[1:] if at is None else words[2:]
        at = len(features) if at is None else at
        if at > len(features) or len(values) != len(columns):
            return "bad-place"
        features.insert(at, Feature(feature, geometry(text), tuple(values)))
    elif name == "remove-feature":
        del features[place]
    elif name == "set-geometry":
        features[place] = features[place]._replace(geometry=geometry(words[1]))
    elif words[1] not in columns:
        return "bad-place"
    else:
        values = list(features[place].values)
        values[columns.index(words[1])] = words[2]
        features[place] = features[place]._replace(values=tuple(values))
    return with_features(layer, features)


def geometry(text):
    return Geometry([], [], []) if text == "none" else geometry_of(text)


def cell_edit(layer, row, column, value):
    if is_table(layer):
        return "wrong-kind"
    cells = layer["contents"]
    if int(row) >= cells.rows or int(column) >= cells.columns:
        return "bad-place"
    values = list(cells.values)
    values[int(row) * cells.columns + int(column)] = decimal(value)
    return {**layer, "contents": cells._replace(values=tuple(values))}


def style_edit(name, layer, words):
    if is_table(layer) != (name == "set-style"):
        return "wrong-kind"
    if name == "set-style":
        return {**layer, "style": {"kind": "single", "symbol": symbol_of_words(words)}}
    stops = [{"value": value, "colour": colour} for value, colour in zip(words[1::2], words[2::2])]
    return {**layer, "style": {"kind": "ramp", "ramp": words[0], "stops": stops}}


def layer_edit(name, layer, words):
    """An edit of a layer that stays where it is."""
    if name in ("set-style", "set-ramp"):
        return style_edit(name, layer, words)
    if name == "set-mask":
        return {**layer, "mask": None if words[0] == "none" else int(words[0])}
    if name == "set-join":
        join = None if words == ["none"] else {"layer": int(words[0]), "local": words[1], "key": words[2]}
        return {**layer, "join": join}
    if name == "set-scales":
        bounds = zip(("least", "greatest"), words)
        return {**layer, "scales": {bound: text for bound, text in bounds if text != "none"}}
    if name in ("show", "hide"):
        return {**layer, "visible": name == "show"}
    if name in ("opacity", "blend"):
        return {**layer, name: int(words[0]) if name == "opacity" else words[0]}
    return data_edit(name, layer, words)


def adding(project, place, layer, name, columns):
    layers = list(project["layers"])
    if any(one["id"] == layer for one in layers):
        return "duplicate-id"
    if len(layers) >= 32 or len(columns) > 256:
        return "limit"
    if place > len(layers):
        return "bad-place"
    layers.insert(place, {"id": layer, "name": name, "style": {"kind": "single", "symbol": {}},
                          "contents": Table(tuple(columns), ())})
    return {**project, "layers": layers}


def edited(project, words):
    """A project behind an edit, or why the edit is refused."""
    name, words = words[0], words[1:]
    if name == "background":
        return {**project, "background": words[0]}
    if name == "add-layer":
        return adding(project, int(words[0]), int(words[1]), words[2], words[3:])
    layers, at = list(project["layers"]), place_in(project, int(words[0]))
    if at is None:
        return "unknown-layer"
    if name == "remove-layer":
        del layers[at]
    elif name == "move":
        if int(words[1]) >= len(layers):
            return "bad-place"
        layers.insert(int(words[1]), layers.pop(at))
    else:
        layers[at] = layer_edit(name, layers[at], words[1:])
        if isinstance(layers[at], str):
            return layers[at]
    return {**project, "layers": layers}


def place_in(project, layer):
    return next((at for at, one in enumerate(project["layers"]) if one["id"] == layer), None)


def touched(words):
    """The layer that an accepted edit touches, or None where it touches none."""
    if words[0] in FRAME:
        return None
    return int(words[2] if words[0] == "add-layer" else words[1])


def dependencies(layer):
    join = layer.get("join")
    return [layer["id"], *([layer["mask"]] if layer.get("mask") else []), *([join["layer"]] if join else [])]


# Jobs and caches


class Job:
    """A job by the entries so far: what it took, its slots' standing, whether it is composed, and its end."""

    def __init__(self, number, canvas, project, view, edits):
        self.number, self.canvas, self.project, self.view, self.edits = number, canvas, project, view, edits
        self.slots = slots_of(project, view)
        self.standing = [None] * len(self.slots)
        self.composed, self.end = False, None

    def open_task(self):
        if self.end:
            return None
        if None in self.standing:
            return ("look", self, self.standing.index(None))
        if not self.composed and all(one == "ready" for one in self.standing):
            return ("compose", self)
        return None

    def ready(self):
        return [slot for slot, one in enumerate(self.standing) if one == "ready"]


class Canvas:
    def __init__(self, spec):
        self.spec = spec
        size = 4 * spec["width"] * spec["height"]
        self.capacity = min(64, spec.get("cache", 67108864) // size)
        self.view, self.cache, self.jobs, self.published = None, [], [], None


class Play:
    """A play of a script: the journal's lines, the refused ones, and the files."""

    def __init__(self, project):
        self.project, self.edits, self.count = project, [], 0
        self.canvases, self.jobs, self.held = [Canvas(spec) for spec in project["canvases"]], [], []
        self.journal, self.refused, self.files = [], [], []

    def enter(self, text):
        self.journal.append(f"{len(self.journal) + 1} 0 {text}")

    def refuse(self, line, reason):
        self.refused.append(f"refused {line} {len(self.journal)} {reason}")

    def canvas(self, number):
        return self.canvases[number] if number < len(self.canvases) else None

    # What an entry does

    def set_view(self, number, view):
        canvas = self.canvases[number]
        if canvas.view is None or not is_pan(view, canvas.view):
            canvas.cache = []
        canvas.view = view
        self.enter(f"view {number} {view.left} {view.top} {view.unit} {view.width} {view.height}")

    def start(self, number):
        canvas = self.canvases[number]
        for job in canvas.jobs:
            job.end = job.end or "cancelled"
        job = Job(len(self.jobs) + 1, canvas, self.project, canvas.view, len(self.edits))
        self.jobs.append(job)
        canvas.jobs.append(job)
        self.enter(f"start {number} {job.number}")

    def is_fresh(self, job, slot):
        since = self.edits[job.edits:]
        return (job.view == job.canvas.view
                and not any(one in dependencies(job.slots[slot]) for one in since if one is not None))

    def task(self):
        return next(filter(None, (job.open_task() for job in self.jobs)), None)

    def claim(self, task):
        """Claims a task, which is held then unless it is a look that hits."""
        job = task[1]
        if task[0] == "compose":
            job.composed = True
            self.enter(f"compose {job.number}")
            return [task]
        slot = task[2]
        layer, cache = job.slots[slot]["id"], job.canvas.cache
        pair = next((pair for pair in cache if pair[:2] == (layer, job.view)), None)
        hit = pair is not None and self.is_fresh(job, slot)
        if hit:
            job.canvas.cache = [pair, *(one for one in cache if one is not pair)]
        job.standing[slot] = "ready" if hit else "missed"
        self.enter(f"look {job.number} {slot} {'hit' if hit else 'miss'}")
        return [] if hit else [task]

    def deliver(self, job, slot):
        canvas, layer = job.canvas, job.slots[slot]
        fate = "kept"
        if job.end:
            fate = "dropped"
        elif self.is_fresh(job, slot) and canvas.capacity:
            fate = "stored"
            others = [pair for pair in canvas.cache if pair[0] != layer["id"]]
            canvas.cache = [(layer["id"], job.view, dependencies(layer)), *others][:canvas.capacity]
        job.standing[slot] = "lost" if job.end else "ready"
        self.enter(f"deliver {job.number} {slot} {fate}")

    def do(self, task):
        """Does a held task, as far as its job asks for it."""
        job = task[1]
        if task[0] == "look":
            self.deliver(job, task[2])
        elif not job.end:
            job.end, job.canvas.published = "finished", job
            self.enter(f"finish {job.number}")

    def edit(self, line, words):
        self.count += 1
        behind = edited(self.project, words)
        if isinstance(behind, str):
            self.enter(f"edit {self.count} {behind}")
            self.refuse(line, behind)
            return
        layer = touched(words)
        for canvas in self.canvases if layer is not None else ():
            canvas.cache = [pair for pair in canvas.cache if layer not in pair[2]]
        self.project = behind
        self.edits.append(layer)
        self.enter(f"edit {self.count} ok")

    # Commands: each answers why it is refused, if it is

    def view(self, number, *extent):
        canvas = self.canvas(number)
        if canvas is None:
            return "unknown-canvas"
        xmin, ymin, xmax, ymax = map(millionths, extent)
        if xmin >= xmax or ymin >= ymax:
            return "empty"
        return self.show(number, view_of({**canvas.spec, "extent": extent}))

    def show(self, number, view):
        if not is_view(view):
            return "range"
        return self.set_view(number, view)

    def move_view(self, number, moved, *numbers):
        canvas = self.canvas(number)
        if canvas is None or canvas.view is None:
            return "unknown-canvas" if canvas is None else "no-view"
        return self.show(number, moved(canvas.view, *map(int, numbers)))

    def pan(self, number, dx, dy):
        return self.move_view(number, panned, dx, dy)

    def zoom(self, number, numerator, denominator):
        return self.move_view(number, zoomed, numerator, denominator)

    def begin(self, number):
        canvas = self.canvas(number)
        if canvas is None or canvas.view is None:
            return "unknown-canvas" if canvas is None else "no-view"
        return self.start(number)

    def of_last(self, number, act):
        canvas = self.canvas(number)
        if canvas is None or not canvas.jobs:
            return "unknown-canvas" if canvas is None else "no-job"
        return act(canvas.jobs[-1])

    def cancel(self, number):
        def act(job):
            if job.end:
                return f"ended-{job.end}"
            job.end = "cancelled"
            return self.enter(f"cancel {job.number}")
        return self.of_last(number, act)

    def wait(self, number):
        def act(job):
            while self.held:
                self.do(self.held.pop(0))
            while not job.end:
                for task in self.claim(self.task()):
                    self.do(task)
        return self.of_last(number, act)

    def take(self):
        if len(self.held) >= 64:
            return "held-full"
        task = self.task()
        if task is None:
            return "nothing"
        return self.held.extend(self.claim(task))

    def give(self):
        if not self.held:
            return "nothing-held"
        return self.do(self.held.pop(0))

    def preview(self, number, name):
        def act(job):
            if job.end:
                return f"ended-{job.end}"
            listed = job.ready()
            self.enter(f"preview {job.number} {','.join(map(str, listed)) or '-'}")
            return self.write(name, job, listed)
        return self.of_last(number, act)

    def save(self, number, name):
        canvas = self.canvas(number)
        if canvas is None or canvas.published is None:
            return "unknown-canvas" if canvas is None else "nothing"
        self.enter(f"save {number} {canvas.published.number}")
        return self.write(name, canvas.published, None)

    def write(self, name, job, listed):
        self.files.append((name, pixmap(job.view, picture_of(job.project, job.view, listed))))

    CALLS = {"view": view, "pan": pan, "zoom": zoom, "start": begin, "cancel": cancel, "wait": wait,
             "take": take, "give": give, "preview": preview, "save": save}

    def run(self, commands):
        """Plays all, and answers the journal's text."""
        for number, canvas in enumerate(self.canvases):
            if canvas.spec.get("extent"):
                self.set_view(number, view_of(canvas.spec))
        for line, words in commands:
            call = self.CALLS.get(words[0])
            if call is None:
                self.edit(line, words)
                continue
            reason = call(self, *map(int, words[1:2]), *words[2:])
            if reason:
                self.refuse(line, reason)
        while self.held:
            self.do(self.held.pop(0))
        end = f"end {len(self.journal)} {len(self.files)}"
        return "".join(f"{line}\n" for line in [*self.journal, *self.refused, end])
