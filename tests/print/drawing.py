"""An SVG of ./print, read back: its text, its axes, its panels and their points. Whatever it asks of the SVG is what a reader sees, or what the SVG states of
its axes, which is held to the ticks that a reader sees (picture.py)."""

import re
import xml.etree.ElementTree as tree

SPACE = "{http://www.w3.org/2000/svg}"
NUMBER = r"-?\d+(?:\.\d+)?"


def name_of(element):
    return element.tag.removeprefix(SPACE)


def grouped(element, kind):
    """The elements of a class below another, in order."""
    return [found for found in element.iter() if found.get("class") == kind]


def start_of(path):
    """The place from which a path begins."""
    x, y = re.match(rf"M({NUMBER}) ({NUMBER})", path.get("d")).groups()
    return float(x), float(y)


def shape_of(path):
    """The letters of a path behind its place, and its colour."""
    return re.sub(r"[^a-z]", "", path.get("d")), path.get("fill")


class Part:
    """A part of the time axis, by what the SVG states of it."""

    def __init__(self, element):
        self.first, self.last = int(element.get("data-first")), int(element.get("data-last"))
        self.first_x, self.scale = float(element.get("data-first-x")), float(element.get("data-seconds-per-pixel"))
        left, right = re.fullmatch(rf"M({NUMBER}) {NUMBER}H({NUMBER})", element.get("d")).groups()
        self.left, self.right = float(left), float(right)

    def x(self, time):
        return self.first_x + (time - self.first) / self.scale


class Values:
    """A part of the axis of values, by what the SVG states of it."""

    def __init__(self, element):
        self.element = element
        self.low, self.high = float(element.get("data-low")), float(element.get("data-high"))
        self.top, self.bottom = float(element.get("data-top")), float(element.get("data-bottom"))

    def y(self, value):
        return self.bottom - (value - self.low) / (self.high - self.low) * (self.bottom - self.top)

    def in_view(self, value):
        return self.y(min(max(value, self.low), self.high))


class Panel:
    def __init__(self, element):
        self.element = element
        self.sensor, self.coefficient = int(element.get("data-sensor")), int(element.get("data-coefficient"))
        self.parts = [Values(ground) for ground in grouped(element, "ground")]
        self.top, self.bottom = self.parts[-1].top, self.parts[0].bottom
        self.points = list(grouped(element, "points")[0])
        self.labels = list(grouped(element, "labels")[0])

    def part_of(self, value):
        return next((part for part in self.parts if part.low <= value <= part.high), None)

    def value_ticks(self):
        """Place and text of each."""
        elements = list(grouped(self.element, "values")[0])
        return [(start_of(path)[1], text.text) for path, text in zip(elements[::2], elements[1::2])]


class Drawing:
    def __init__(self, data):
        self.data = data
        self.root = tree.fromstring(data)
        self.width, self.height = float(self.root.get("width")), float(self.root.get("height"))
        self.sensors = {int(element.get("data-sensor")): element for element in grouped(self.root, "sensor")}
        self.panels = {(panel.sensor, panel.coefficient): panel for panel in map(Panel, grouped(self.root, "panel"))}
        self.legend = grouped(self.root, "legend")[0]

    def parts(self, sensor):
        return [Part(element) for element in grouped(self.sensors[sensor], "part")]

    def ticks(self, sensor, row):
        """Place and text of each tick below a sensor's panels; of the row seconds, or dates."""
        return [(float(text.get("x")), text.text) for group in grouped(self.sensors[sensor], row) for text in group if name_of(text) == "text"]

    def words(self):
        """The legend as one line."""
        return " ".join(element.text for element in self.legend if name_of(element) == "text")

    def legend_marks(self):
        """Shape and colour of each mark, by the name that stands behind it."""
        elements = list(self.legend)
        return {after.text: shape_of(path) for path, after in zip(elements, elements[1:]) if name_of(path) == "path"}

    def texts(self):
        """Each text that is drawn with the box that it takes at least: left, top, right, bottom."""
        found = []

        def walk(element, size, anchor):
            size = float(element.get("font-size", size))
            anchor = element.get("text-anchor", anchor)
            if name_of(element) == "text":
                bold = 1.08 if element.get("font-weight") == "bold" else 1
                digits = 0.6 if re.fullmatch(r"[\d .:-]+|\d+ by \d+", element.text) else 0.5
                width = digits * bold * size * len(element.text)
                x, y = float(element.get("x")), float(element.get("y"))
                left = {"start": x, "middle": x - width / 2, "end": x - width}[anchor]
                found.append((element.text, (left, y - 0.74 * size, left + width, y + 0.2 * size)))
            for inner in element:
                walk(inner, size, anchor)

        walk(self.root, 16, "start")
        return found


def meet(a, b):
    return a[0] < b[2] and b[0] < a[2] and a[1] < b[3] and b[1] < a[3]
