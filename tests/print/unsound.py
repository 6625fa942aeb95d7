"""Unsound volumes: for each rule of docs/ARCHIVE.md, "Is it whole?", what breaks it and it alone in a sound volume."""

from volumes import DEFAULTS, ENTRY, HEADER, LIMITS, Entry, Volume, bits_of, f32, float_of, floats, some_float, two

NOT_FINITE = (0x7F800000, 0xFF800000, 0x7FC00000, 0x7F800001, 0xFFFFFFFF)


def base():
    """Two entries or more of each sensor, each method that it has, and room for more."""
    entries = [
        Entry(1, 0, 1, 100, (2.5, 1.5, 0.0)),
        Entry(2, 1, 2, 200, (0.0, 1.0625, 0.0), (8.0, 8.5, 0.0, 0.0)),
        Entry(1, 2, 3, 300, (0.0, 1.25, 0.0), (1000.0, 1250.0, 0.0, 0.0)),
        Entry(3, 0, 4, 400, (1.0, 2.0, 3.0)),
        Entry(4, 1, 5, 500, (0.0, 2.0, 0.0), (4.0, 8.0, 0.0, 0.0)),
        Entry(2, 2, 6, 600, (0.0, 1.125, 0.0), (8.0, 9.0, 0.0, 0.0)),
        Entry(1, 1, 7, 700, (0.0, 1.25, 0.0), (1000.0, 1250.0, 0.0, 0.0)),
        Entry(3, 0, 8, 800, (-1.0, -2.0, -3.0)),
        Entry(4, 2, 9, 900, (0.0, 0.5, 0.0), (8.0, 4.0, 0.0, 0.0)),
    ]
    return Volume(12, None, (0, 1, 2, 4294967295), entries)


def at(index, word=0):
    return HEADER + ENTRY * (index - 1) + word


def with_words(words, changes):
    """The words with some of them changed; whoever changes nothing has made a mistake."""
    out = list(words)
    for place, value in changes.items():
        out[place] = value
    assert out != list(words), changes
    return out


def with_float(words, place, bits):
    return with_words(words, dict(zip((place, place + 1), two(bits))))


def beyond(value, step):
    """The next binary32 further from a limit's inside: above for step 1, below for -1."""
    bits = bits_of(value)
    return bits + (step if value > 0 else -step) if value else (1 if step > 0 else 0x80000001)


def header(words):
    length = len(words)
    for value in (0, 2, 3, 0x0100, 0xFFFF):
        yield f"word 0 is {value}", with_words(words, {0: value})
    for value in (0, words[1] - 1, words[1] + 1, 1000, 0xFFFF):
        yield f"the capacity is {value}", with_words(words, {1: value})
    for short in (1, ENTRY, length - HEADER - ENTRY + 1, length - 63, length - 1):
        yield f"{length - short} words with the capacity of {length}", words[: length - short]
    yield "an entry's words more than the capacity has", words + [0] * ENTRY
    for value in (words[1] + 1, 0xFFFF):
        yield f"{value} entries in use of {words[1]}", with_words(words, {2: value})
    yield "the entries in use are one less than there are", with_words(words, {2: words[2] - 1})
    yield "the entries in use are one more than there are", with_words(words, {2: words[2] + 1})
    for place in (3, *range(12, 16), *range(48, 64)):
        for value in (1, 0x8000):
            yield f"word {place} is {value}", with_words(words, {place: value})


def short(words):
    """Too few words, each with the capacity that its count would give."""
    for length in (1, 2, 63, 64, 65, 87):
        yield f"{length} words", [1, max(0, (length - HEADER) // ENTRY), *words[2:length]][:length]
    yield "64 words with capacity 0, none in use", [1, 0, 0, 0] + [0] * 8 + words[12:64]


def coefficients(words, place, sensor, whose):
    """The ways in which the coefficients from a word on can be wrong."""
    for k, limits in enumerate(LIMITS[sensor]):
        for bits in NOT_FINITE:
            yield f"{whose}: coefficient {k + 1} is {bits:08X}", with_float(words, place + 2 * k, bits)
        wrong = (1, 0x80000000, 0x3F800000)
        if limits:
            low, high = map(f32, limits)
            wrong = (beyond(low, -1), beyond(high, 1), bits_of(2 * high + 1), bits_of(f32(low - 10 * (high - low))))
        for bits in wrong:
            yield f"{whose}: coefficient {k + 1} is {bits:08X}", with_float(words, place + 2 * k, bits)


def openings(words):
    for sensor in LIMITS:
        yield from coefficients(words, 10 + 6 * sensor, sensor, f"the opening of sensor {sensor}")


def direct(words):
    for index in (1, 4):
        yield from coefficients(words, at(index, 6), words[at(index, 1)], f"entry {index}")


def sensors_and_methods(words):
    for index in range(1, words[2] + 1):
        for value in (0, 5, 0x0101, 0xFFFF):
            yield f"entry {index}: sensor {value}", with_words(words, {at(index, 1): value})
        for value in (3, 4, 0x0100, 0xFFFF):
            yield f"entry {index}: method {value}", with_words(words, {at(index, 2): value})
    for method in (1, 2):
        points = (8.0, 16.0, 0.0, 0.0)
        entry = Entry(3, method, 0, 0, (0.0, 2.0, 0.0), points)
        yield f"method {method} on sensor 3", Volume(2, entries=[entry]).words()
        other = Volume(2, entries=[Entry(3, 0, 0, 0, (0.0, 2.0, 0.0))]).words()
        yield f"method {method} on sensor 3, without points", with_words(other, {at(1, 2): method})


def zero_words(words):
    for index in range(1, words[2] + 1):
        for word in range(20, 24):
            for value in (1, 0x8000):
                yield f"entry {index}: word {word} is {value}", with_words(words, {at(index, word): value})


def points(words):
    used = {0: 0, 1: 2, 2: 4}
    for index in range(1, words[2] + 1):
        method = words[at(index, 2)]
        for k, name in enumerate(("x1", "y1", "x2", "y2")):
            place = at(index, 12 + 2 * k)
            for bits in NOT_FINITE:
                yield f"entry {index}: {name} is {bits:08X}", with_float(words, place, bits)
            if k >= used[method]:
                for bits in (1, 0x80000000, 0x3F800000):
                    yield f"entry {index}: {name} is {bits:08X} by method {method}", with_float(words, place, bits)
        if method:
            yield from given_by_points(words, index, method)


def given_by_points(words, index, method):
    """Coefficients a bit away from what the points give, and points that give none."""
    c2 = at(index, 8)
    for bit in (0, 1, 10):
        yield f"entry {index}: coefficient 2 is off by bit {bit}", with_words(words, {c2 + 1: words[c2 + 1] ^ 1 << bit})
    yield f"entry {index}: coefficient 1 is -0", with_float(words, at(index, 6), 0x80000000)
    yield f"entry {index}: coefficient 1 is the least number", with_float(words, at(index, 6), 1)
    y1 = float_of(words[at(index, 14)] << 16 | words[at(index, 15)])
    yield f"entry {index}: another y1", with_float(words, at(index, 14), bits_of(y1 * 1.5))
    for zero in (0, 0x80000000):
        yield f"entry {index}: x1 is {zero:08X}", with_float(words, at(index, 12), zero)
    if method == 2:
        same = words[at(index, 12) : at(index, 14)]
        yield f"entry {index}: x2 is x1", with_words(words, {at(index, 16): same[0], at(index, 17): same[1]})


def unfused(_):
    """Coefficients that other roundings than those of docs/ARCHIVE.md give."""
    cases = (
        ((0x40400000, 0x3F800000, 0, 0), (0xB3000000, 0x3EAAAAAB), "fused"),
        ((5, 4, 1, 2), (1, 0x3F000000), "ties away from zero"),
    )
    for points, (c1, c2), why in cases:
        entry = Entry(4, 2, 0, 0, map(float_of, (c1, c2, 0)), map(float_of, points))
        yield f"coefficients by another rounding: {why}", Volume(2, entries=[entry]).words()


def beyond_limits_by_points(_):
    """What the points give is outside the limits."""
    for sensor, method, points, given in (
        (1, 1, (1.0, 5.0, 0.0, 0.0), (0.0, 5.0, 0.0)),
        (2, 2, (8.0, 4.0, 0.0, 0.0), (0.0, 0.5, 0.0)),
        (4, 2, (1.0, 202.0, 0.0, 200.0), (200.0, 2.0, 0.0)),
    ):
        entry = Entry(sensor, method, 0, 0, given, points)
        yield f"sensor {sensor}: points that give {given}", Volume(2, entries=[entry]).words()


def links(words):
    n = words[2]
    for index in range(1, n + 1):
        for value in {0, index, index - 1, index + 1, n, n + 1, 0xFFFF} - {words[at(index)]}:
            yield f"entry {index}: next is {value}", with_words(words, {at(index): value})
    for sensor in LIMITS:
        for place, name in ((3 + sensor, "first"), (7 + sensor, "last")):
            for value in {0, *range(1, n + 2), 0xFFFF} - {words[place]}:
                yield f"{name} of sensor {sensor} is {value}", with_words(words, {place: value})


def chains(_):
    """Links that each look right by themselves."""
    entries = [Entry(sensor, 0, 0, 0, DEFAULTS[sensor]) for sensor in (1, 1, 2, 1, 2)]
    words = Volume(6, entries=entries).words()
    yield "a chain that leaves an entry out", with_words(words, {at(1): 4})
    yield "a chain that goes over to another sensor's", with_words(words, {at(2): 3})
    yield "two chains that end in each other", with_words(words, {at(4): 5, at(3): 0, 8: 5, 9: 3})
    yield "a chain that ends early", with_words(words, {at(2): 0, 8: 2})
    yield "a chain that begins late", with_words(words, {4: 2})
    yield "a chain that goes back", with_words(words, {at(4): 1})
    yield "a sensor without entries that has a first", with_words(words, {6: 3, 10: 3})
    yield "another sensor on the chain", with_words(words, {at(2, 1): 2})
    yield "first and last without an entry", with_words(Volume(3).words(), {4: 1, 8: 1})
    yield "first without an entry", with_words(Volume(3).words(), {7: 1})
    yield "last without an entry", with_words(Volume(3).words(), {11: 1})


RULES = (
    header,
    short,
    openings,
    sensors_and_methods,
    direct,
    zero_words,
    points,
    unfused,
    beyond_limits_by_points,
    links,
    chains,
)


def all_unsound():
    """Rule, what is wrong, words."""
    words = base().words()
    for rule in RULES:
        for what, broken in rule(words):
            yield rule.__name__, what, broken
