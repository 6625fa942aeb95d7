"""Journals whose pictures are looked at: by name, how many entries and what is special about them."""

from volumes import DEFAULTS, Entry, Volume, f32, fixed, fits, given, some_volume

START = 1767225600
DAY = 86400


def one():
    """The worked case of document 02, wish 4."""
    return Volume(1, entries=[Entry(1, 1, 7, 1000, (0.0, 1.25, 0.0), (1000.0, 1250.0, 0.0, 0.0))])


def drift(rng, sensor, method, time, technician, state):
    """An entry whose coefficients lie near those before it."""
    if sensor == 3:
        steps = (0.02, 0.5, 0.3)
        state[3] = tuple(f32(value + rng.gauss(0, step)) for value, step in zip(state[3], steps))
        return Entry(3, 0, technician, time, state[3])
    spread = {1: (0.5, 0.02), 2: (0.01, 0.004), 4: (0.3, 0.05)}[sensor]
    while True:
        slope = state[sensor][1] + rng.gauss(0, spread[1])
        offset = rng.gauss(0, spread[0])
        if method == 0:
            coefficients, points = (f32(offset), f32(slope), 0.0), (0.0, 0.0, 0.0, 0.0)
        else:
            x1 = f32(rng.uniform(5, 15))
            points = (x1, f32((offset if method == 2 else 0) + slope * x1), 0.0, f32(offset) if method == 2 else 0.0)
            coefficients = given(method, points)
        if coefficients and fits(sensor, coefficients):
            state[sensor] = coefficients
            return Entry(sensor, method, technician, time, coefficients, points)


def journal(count, seed, days, sensors=(1, 2, 3, 4), technicians=(7, 12, 1234, 0, 65535)):
    rng = fixed(seed)
    state = dict(DEFAULTS)
    times = sorted(START + rng.randrange(days * DAY) for _ in range(count))
    entries = [drift(rng, rng.choice(sensors), rng.randrange(3), time, rng.choice(technicians), state) for time in times]
    return Volume(max(1, count), None, (0, START - 3 * DAY, 0, 0), entries)


def thirty():
    return journal(30, 3, 500, sensors=(1, 1, 2, 2, 4))


def thousand():
    return journal(1000, 5, 3650)


def back():
    """Times that are equal, go back and lie far apart, as where the clock was set."""
    volume = journal(24, 9, 40)
    rng = fixed(11)
    for entry in volume.entries:
        entry.time = rng.choice((START, START, START + DAY, START + 3 * DAY, START + 40 * DAY, 5000, 5100))
    return volume


def empty():
    return Volume(3, {**DEFAULTS, 2: (f32(-0.2), f32(1.2), 0.0), 3: (1.5, -2.5, 1e-40)}, (0, START, 5, 4294967295))


def alike():
    """Coefficients that differ in their last bits alone, and times of one second."""
    entries = [Entry(1, 0, 1, START, (f32(1e-40 * k), f32(1 + k * 2.0**-23), 0.0)) for k in range(5)]
    entries += [Entry(3, 0, 2, START, (f32(9.5 + k * 2.0**-20), 10000.0, 2000.0)) for k in range(5)]
    return Volume(12, entries=entries)


def level():
    """References far from their openings, which later calibrations change by little."""
    rng = fixed(13)
    entries = [Entry(3, 0, 7, START + k * 30 * DAY, (f32(0.1 + rng.gauss(0, 0.01)), f32(412.5 + rng.gauss(0, 0.02)), f32(14.7))) for k in range(12)]
    entries += [Entry(4, 0, 12, START + k * DAY, (f32(-90 - k / 1000), f32(7.9 + k / 20), 0.0)) for k in range(3)]
    return Volume(20, entries=entries)


def extremes():
    """Any sound volume: times over the whole range, coefficients at their limits."""
    return some_volume(fixed(21), entries=60, capacity=60)


def random_journal(seed):
    """Times of any kind: over years or a few seconds, in clusters, anywhere."""
    rng = fixed(seed)
    kind = rng.randrange(4)
    if kind == 0:
        return journal(rng.randrange(1, 60), seed, rng.choice((1, 2, 10, 100, 1000, 10000)))
    volume = some_volume(rng, entries=rng.choice((1, 2, 3, 5, 10, 40, 100)))
    starts = [rng.randrange(1 << 32) for _ in range(rng.randrange(1, 6) if kind == 1 else 1)]
    span = int(10 ** rng.uniform(0, 9 if kind == 2 else 6))
    if kind < 3:
        for entry in volume.entries:
            entry.time = min(4294967295, rng.choice(starts) + rng.randrange(span))
    return volume


SAMPLES = (one, thirty, thousand, back, empty, alike, level, extremes)
