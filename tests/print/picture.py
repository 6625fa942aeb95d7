"""picture.py TOP FOLDER: the pictures that ./print of a repository draws of the samples, and its host of random journals, beside their pages. Each volume and
picture is left in FOLDER."""

import calendar
import re
import sys
import time
from itertools import combinations
from pathlib import Path

import checks
from checks import check, equal, ran
from drawing import NUMBER, Drawing, grouped, meet, name_of, shape_of, start_of
from samples import SAMPLES, random_journal
from volumes import LIMITS, bits_of, f32, float_of, page, to_bytes

TOP, FOLDER = Path(sys.argv[1]).resolve(), Path(sys.argv[2])
PRINT = [str(TOP / "print"), "--svg"]
HOST = [str(TOP / "target/cargo/release/print"), str(TOP / "target/bin/printer"), "svg", "standard input"]
RANDOM = 60
PANELS = [(sensor, k) for sensor, limits in LIMITS.items() for k, limit in enumerate(limits, 1) if limit]
METHODS = {"-": "opening", "0": "method 0, direct", "1": "method 1, one point", "2": "method 2, two points"}
TITLE = re.compile(
    r"(?:opening of sensor (?P<sensor>\d)|entry (?P<index>\d+), technician (?P<technician>\d+), (?P<method>method .*?))"
    r", time (?P<time>\d+) \((?P<date>[\d :-]+) UTC if 0 is 1970\): (?P<value>\S+) \((?P<digits>[0-9A-F]{8})\)"
)
HALF = 0.5  # pixels


class Line:
    """A line of the page."""

    def __init__(self, text):
        index, sensor, self.method, technician, clock, *digits = text.split()
        self.index, self.sensor, self.technician, self.time = int(index), int(sensor), int(technician), int(clock)
        self.digits = digits


def near(found, wanted, what, most=HALF):
    return check(abs(found - wanted) <= most, f"{what}: {found} instead of {wanted}")


def utc(clock, length=19):
    return time.strftime("%Y-%m-%d %H:%M:%S", time.gmtime(clock))[:length]


def seconds_of(date):
    """The clock of a date that may end early."""
    whole = date + "1970-01-01 00:00:00"[len(date) :]
    return calendar.timegm(time.strptime(whole, "%Y-%m-%d %H:%M:%S"))


def stands_alone(name, drawing):
    """Nothing that runs, nothing from elsewhere, and the few elements that every viewer of SVG knows."""
    names = {name_of(element) for element in drawing.root.iter()}
    check(names <= {"svg", "title", "g", "rect", "path", "text"}, f"{name}: elements {names}")
    allowed = {"class", "d", "x", "y", "width", "height", "viewBox", "fill", "stroke", "stroke-width", "stroke-dasharray", "text-anchor"}
    allowed |= {"font-size", "font-weight", "font-family"}
    for element in drawing.root.iter():
        others = {key for key in element.keys() if not key.startswith("data-")} - allowed
        if others:
            check(False, f"{name}: attributes {others}")
    text = drawing.data.decode("utf-8")
    equal(re.findall(r"\w+://[^\"' <]*", text), ["http://www.w3.org/2000/svg"], f"{name}: what is linked")
    check(not re.search(r"script|href|url\(|@import|@font-face|<!|javascript", text, re.I), f"{name}: a link, a font, a style or a script")


def legend(name, drawing, lines):
    entries = sum(line.index > 0 for line in lines)
    counted = {0: "no entry", 1: "1 entry"}.get(entries, f"{entries} entries")
    words = drawing.words()
    for part in (
        "Calibration coefficients of a water-quality sonde",
        f"this page has {counted}.",
        "IEEE 754 binary32",
        "A point is an accepted calibration",
        "The line joins the points in the order in which they were accepted",
        "17 by 1234 is entry 17 by technician 1234",
        "The light band is what the limits allow, both ends included",
        "Times are seconds of the clock of the sonde's host. The volume doesn't hold what the clock's zero is",
        "UTC if zero is 1970-01-01 00:00:00",
        "Coefficient 3 of sensors 1, 2 and 4 is always +0 and has no panel.",
    ):
        check(part in words, f"{name}: the legend doesn't say: {part}")
    marks = drawing.legend_marks()
    equal(sorted(marks), sorted(METHODS.values()), f"{name}: the marks of the legend")
    equal(len({shape for shape, _ in marks.values()}), 4, f"{name}: shapes of the legend's marks")
    equal(len({colour for _, colour in marks.values()}), 4, f"{name}: colours of the legend's marks")


def time_axis(name, drawing, sensor):
    """What the SVG states of its time axis is what its ticks show."""
    parts = drawing.parts(sensor)
    for before, after in zip(parts, parts[1:]):
        check(before.last < after.first and before.right < after.left, f"{name}: parts of the time axis in order")
        equal(before.scale, after.scale, f"{name}: the scale on both sides of a cut")
    for row, clock_of in (("seconds", int), ("dates", seconds_of)):
        ticks = drawing.ticks(sensor, row)
        for part in parts:
            inside = [(x, text) for x, text in ticks if part.left <= x <= part.right]
            check(inside, f"{name}: sensor {sensor}, {row}: a part of the axis without ticks")
            for x, text in inside:
                near(x, part.x(clock_of(text)), f"{name}: sensor {sensor}: the tick {text}")
        outside = [text for x, text in ticks if not any(part.left <= x <= part.right for part in parts)]
        equal(outside, [], f"{name}: sensor {sensor}: ticks outside the axis")


def value_axis(name, panel):
    """What the SVG states of its axis of values is what its ticks show; the scale is the same on both sides of a cut."""
    what, ticks = f"{name}: {panel.sensor}, {panel.coefficient}", panel.value_ticks()
    scales = [(part.high - part.low) / (part.bottom - part.top) for part in panel.parts]
    check(max(scales) < 1.0001 * min(scales), f"{what}: scales {scales}")
    for below, above in zip(panel.parts, panel.parts[1:]):
        check(below.high < above.low and above.bottom < below.top, f"{what}: parts in order")
    check(len(ticks) >= 2, f"{what}: ticks {ticks}")
    for part in panel.parts:
        inside = [(y, text) for y, text in ticks if part.top - HALF <= y <= part.bottom + HALF]
        check(inside, f"{what}: a part without ticks")
        for y, text in inside:
            near(y, part.y(float(text)), f"{what}: the tick {text}")
    outside = [text for _, text in ticks if panel.part_of(float(text)) is None]
    equal(outside, [], f"{what}: ticks outside the axis")


def limits(name, panel):
    low, high = map(f32, LIMITS[panel.sensor][panel.coefficient - 1])
    what = f"{name}: {panel.sensor}, {panel.coefficient}"
    for part in panel.parts:
        bands = grouped(part.element, "band")
        check(bands, f"{what}: no band")
        for band in bands:
            top, height = float(band.get("y")), float(band.get("height"))
            near(top, part.in_view(high), f"{what}: the band's top")
            near(top + height, part.in_view(low), f"{what}: the band's bottom")
        shown = {start_of(path)[1] for path in grouped(part.element, "limit")}
        wanted = [part.y(limit) for limit in (high, low) if part.low <= limit <= part.high]
        fit = len(shown) == len(wanted) and all(min(abs(y - w) for y in shown) <= HALF for w in wanted)
        check(fit, f"{what}: lines at limits {shown}, {wanted}")
    gauge(what, panel, low, high)


def gauge(what, panel, low, high):
    whole, *inner = grouped(panel.element, "gauge")[0]
    texts = [element.text for element in inner if name_of(element) == "text"]
    black = [element for element in inner if name_of(element) == "rect"]
    equal(texts, [f"limit {shortest(high)}", f"limit {shortest(low)}"], f"{what}: the gauge's limits")
    equal(len(black), len(panel.parts), f"{what}: the gauge's black parts")
    top, height = float(whole.get("y")), float(whole.get("height"))
    place = lambda value: top + height * (high - min(max(value, low), high)) / (high - low)
    for element, part in zip(black, panel.parts):
        start, size = float(element.get("y")), float(element.get("height"))
        near(start, place(part.high), f"{what}: the top of a black part of the gauge", 2.1)
        near(start + size, place(part.low), f"{what}: its bottom", 2.1)


def shortest(value):
    """The shortest decimal that reads back to a binary32."""
    text = next(text for text in (f"{value:.{digits}g}" for digits in range(1, 10)) if bits_of(f32(float(text))) == bits_of(value))
    return str(int(float(text))) if "e" in text and abs(float(text)) >= 1 else text


def significant(text):
    """The count of a decimal's digits, without zeros at either end."""
    return len(re.sub(r"e.*|[-.]", "", text).strip("0"))


def title(what, point, line, coefficient):
    found = TITLE.fullmatch(point[0].text)
    if not check(found is not None, f"{what}: the title {point[0].text}"):
        return
    digits = line.digits[coefficient - 1]
    wanted = {"time": str(line.time), "date": utc(line.time), "digits": digits}
    if line.index:
        wanted |= {"index": str(line.index), "technician": str(line.technician), "method": METHODS[line.method]}
    else:
        wanted |= {"sensor": str(line.sensor)}
    equal({key: value for key, value in found.groupdict().items() if value and key != "value"}, wanted, f"{what}: the title")
    value, exact = found["value"], float_of(int(digits, 16))
    equal(bits_of(f32(float(value))), int(digits, 16), f"{what}: the value {value}")
    equal(significant(value), significant(shortest(exact)), f"{what}: digits of {value}")


def points(name, drawing, panel, lines):
    """Each line of the page has its mark, in order, where its time and its value stand; the steps go through them."""
    parts, marks = drawing.parts(panel.sensor), drawing.legend_marks()
    wanted = [line for line in lines if line.sensor == panel.sensor]
    if not equal(len(panel.points), len(wanted), f"{name}: {panel.sensor}, {panel.coefficient}: points"):
        return
    places = []
    for point, line in zip(panel.points, wanted):
        what = f"{name}: {panel.sensor}, {panel.coefficient}: entry {line.index}"
        x, y = start_of(point)
        places.append((x, y))
        title(what, point, line, panel.coefficient)
        equal(shape_of(point), marks[METHODS[line.method]], f"{what}: the mark")
        value = float_of(int(line.digits[panel.coefficient - 1], 16))
        if check(panel.part_of(value) is not None, f"{what}: no part of the axis has its value"):
            near(y, panel.part_of(value).y(value), f"{what}: the height")
            check(panel.part_of(value).top <= y <= panel.part_of(value).bottom, f"{what}: beside its part of the axis")
        if line.index:
            part = next((part for part in parts if part.first <= line.time <= part.last), None)
            if check(part is not None, f"{what}: no part of the axis has its time"):
                near(x, part.x(line.time), f"{what}: the time")
                check(part.left <= x <= part.right, f"{what}: beside its part of the axis")
        else:
            check(all(x < part.left for part in parts), f"{what}: the opening has no column of its own")
    steps(name, panel, places)


def steps(name, panel, places):
    what = f"{name}: {panel.sensor}, {panel.coefficient}"
    path = grouped(panel.element, "steps")[0].get("d")
    found = re.fullmatch(rf"M({NUMBER}) ({NUMBER})((?:H{NUMBER}V{NUMBER})*)", path)
    corners = [(float(found[1]), float(found[2]))]
    corners += [(float(x), float(y)) for x, y in re.findall(rf"H({NUMBER})V({NUMBER})", found[3])]
    equal(corners, places, f"{what}: the steps")
    rest = re.fullmatch(rf"M({NUMBER}) ({NUMBER})H({NUMBER})", grouped(panel.element, "rest")[0].get("d"))
    equal((float(rest[1]), float(rest[2])), places[-1], f"{what}: where the dotted line begins")
    check(float(rest[3]) >= max(x for x, _ in places), f"{what}: where the dotted line ends")


def labels(name, drawing, panel, lines):
    """Each names an entry of the sensor and stands beside its mark, inside the frames; most have one where they are few."""
    entries = {f"{line.index} by {line.technician}" if line.technician else str(line.index): line.index for line in lines if line.index}
    own = {line.index: at for at, line in enumerate(line for line in lines if line.sensor == panel.sensor)}
    seen = [label.text for label in panel.labels]
    what = f"{name}: {panel.sensor}, {panel.coefficient}"
    equal(len(seen), len(set(seen)), f"{what}: labels that come twice")
    for label in panel.labels:
        if check(label.text in entries and entries[label.text] in own, f"{what}: the label {label.text}"):
            x, y = start_of(panel.points[own[entries[label.text]]])
            near(float(label.get("x")), x, f"{what}: beside the mark of {label.text}", 6 + 4 * len(label.text))
            near(float(label.get("y")), y + 3, f"{what}: level with the mark of {label.text}", 16)
            left, right = float(label.get("x")) - 3 * len(label.text), float(label.get("x")) + 3 * len(label.text)
            check(any(part.left <= left and right <= part.right for part in drawing.parts(panel.sensor)), f"{what}: {label.text} lies across a frame")
            top, bottom = float(label.get("y")) - 7, float(label.get("y"))
            check(any(part.top <= top and bottom <= part.bottom for part in panel.parts), f"{what}: {label.text} lies across a frame")
    count = len(own) - 1
    least = {0: 0, 1: 1}.get(count, min(12, count // 2)) if name in ("one", "thirty", "thousand", "alike") else 0
    check(len(seen) >= least, f"{what}: {len(seen)} labels of {count} entries")


def nothing_overlaps(name, drawing):
    texts = drawing.texts()
    for text, (left, top, right, bottom) in texts:
        check(0 <= left and 0 <= top and right <= drawing.width and bottom <= drawing.height, f"{name}: cut off: {text}")
    texts.sort(key=lambda found: found[1][1])
    for (one, box), (other, beside) in combinations(texts, 2):
        if meet(box, beside):
            check(False, f"{name}: {one} overlaps {other}")
    for panel in drawing.panels.values():
        boxes = [box for text, box in texts if panel.top < (box[1] + box[3]) / 2 < panel.bottom]
        for point in panel.points:
            x, y = start_of(point)
            covered = [box for box in boxes if meet(box, (x - 2, y - 2, x + 2, y + 2))]
            if covered:
                check(False, f"{name}: {panel.sensor}, {panel.coefficient}: a text covers the mark at {x}, {y}")


def sample_picture(sample):
    """A file and standard input give the same picture."""
    data = to_bytes(sample().words())
    path = FOLDER / f"{sample.__name__}.volume"
    path.write_bytes(data)
    status, found, said = ran([*PRINT, str(path)])
    equal(ran(PRINT, data), (status, found, said), f"{sample.__name__}: the picture once more, of standard input")
    picture(sample.__name__, sample().words(), status, found, said)


def random_picture(seed):
    words = random_journal(seed).words()
    picture(f"random journal {seed}", words, *ran(HOST, to_bytes(words)))


def picture(name, words, status, data, said):
    if not equal((status, said), (0, b""), f"{name}: exit status and standard error"):
        return
    (FOLDER / f"{name}.svg").write_bytes(data)
    check(len(data) < 60000 + 600 * words[2], f"{name}: {len(data)} bytes")
    lines = [Line(text) for text in page(words).decode("ascii").splitlines()]
    drawing = Drawing(data)
    stands_alone(name, drawing)
    legend(name, drawing, lines)
    equal(list(drawing.panels), PANELS, f"{name}: the panels")
    for sensor in LIMITS:
        time_axis(name, drawing, sensor)
        heading(name, drawing, sensor, lines)
    for panel in drawing.panels.values():
        value_axis(name, panel)
        limits(name, panel)
        points(name, drawing, panel, lines)
        labels(name, drawing, panel, lines)
    nothing_overlaps(name, drawing)


def heading(name, drawing, sensor, lines):
    """A sensor's heading tells its entries, and the time of its opening stands below its column."""
    own = [line for line in lines if line.sensor == sensor]
    texts = [element.text for element in drawing.sensors[sensor].iter() if name_of(element) == "text"]
    counted = {0: "no entry in this volume, so the opening stayed in force", 1: "1 entry"}.get(len(own) - 1, f"{len(own) - 1} entries")
    check(texts[0].startswith(f"Sensor {sensor}, ") and texts[0].endswith(f": {counted}"), f"{name}: the heading {texts[0]}")
    opening = own[0]
    at = texts.index("opening")
    day = utc(opening.time, 10) if opening.time else "never calibrated"
    equal(texts[at - 2 : at], [str(opening.time), day], f"{name}: sensor {sensor}: the opening's time")
    check("UTC if 0 is 1970" in texts and "seconds" in texts, f"{name}: sensor {sensor}: the names of the axes")


for each in SAMPLES:
    sample_picture(each)
for number in range(RANDOM):
    random_picture(number)
checks.ended("pictures")
