"""program.py PROGRAM: the proved printer beside the second printer of volumes.py, on sound volumes of all kinds, on volumes that break each rule of soundness,
and on what is no volume at all."""

import subprocess
import sys
from pathlib import Path

import checks
from checks import UNSOUND, check, equal, ran
from samples import SAMPLES
from unsound import RULES, all_unsound, base
from volumes import DEFAULTS, ENTRY, HEADER, MOST, Entry, Volume, fixed, page, some_entry, some_volume, to_bytes

PROGRAM = str(Path(sys.argv[1]).resolve())
ROOT = Path(__file__).resolve().parents[2]
WORKED = b"""\
   0 1 -     0          0 00000000 3F800000 00000000
   0 2 -     0          0 00000000 3F800000 00000000
   0 3 -     0          0 00000000 00000000 00000000
   0 4 -     0          0 00000000 3F800000 00000000
   1 1 1     7       1000 00000000 3FA00000 00000000
"""


def prints(volume, wanted, what):
    """The program prints this and nothing else, also on standard error."""
    return equal(ran([PROGRAM], volume), (0, wanted, b""), what)


def sound(words, what):
    return prints(to_bytes(words), page(words), what)


def worked():
    volume = Volume(1, entries=[Entry(1, 1, 7, 1000, (0.0, 1.25, 0.0), (1000.0, 1250.0, 0.0, 0.0))])
    equal(page(volume.words()), WORKED, "the second printer on the worked case")
    prints(to_bytes(volume.words()), WORKED, "the worked case")


def sound_volumes():
    for sample in SAMPLES:
        sound(sample().words(), f"the sample {sample.__name__}")
    sound(base().words(), "the volume that is broken below")
    rng = fixed(4)
    for count in range(300):
        sound(some_volume(rng).words(), f"random volume {count}")
    for index in (9, 10, 99, 100, 999, 1000):
        sound(some_volume(rng, entries=index).words(), f"a volume of {index} entries")


def lengths():
    rng = fixed(5)
    full = some_volume(rng, entries=MOST, capacity=MOST).words()
    kinds = {(full[at + 1], full[at + 2]) for at in range(HEADER, len(full), ENTRY)}
    equal(len(kinds), 10, "kinds of sensor and method in the full journal")
    equal(len(full), 24064, "the words of the full journal")
    data = to_bytes(full)
    sound(full, "48128 bytes")
    few = Volume(MOST, entries=[some_entry(rng) for _ in range(5)], free=lambda: rng.randrange(65536)).words()
    equal(len(few), 24064, "the words of the longest volume with few entries")
    sound(few, "24064 words, few entries")
    for more in (1, 2, 3, 48, 65536, 1 << 20):
        for words, what in ((data, "a full journal"), (to_bytes(few), "few entries")):
            prints(words + bytes(more), UNSOUND, f"{what} and {more} bytes more than 48128")
    for count in range(0, 24):
        sound(Volume(1, more=count, free=lambda: 0xA5A5).words(), f"{count} words beyond an entry's")
    least = to_bytes(Volume(1).words())
    equal(len(least), 176, "the bytes of the least volume")
    for count in (0, 1, 2, 3, 4, 127, 128, 129, 174, 175):
        prints(least[:count], UNSOUND, f"{count} bytes")
    for more in (b"\0", b"\xa5"):
        prints(least + more, UNSOUND, "177 bytes")
    for count in range(len(data) - 4, len(data)):
        prints(data[:count], UNSOUND, f"{count} bytes of a full journal")
    prints(b"\n" * 176, UNSOUND, "line ends")
    prints(UNSOUND, UNSOUND, "the word itself")
    prints(WORKED, UNSOUND, "a page")


def unsound():
    rules = set()
    for rule, what, words in all_unsound():
        rules.add(rule)
        prints(to_bytes(words), UNSOUND, f"{rule}: {what}")
    equal(rules, {rule.__name__ for rule in RULES}, "the rules that were broken")


def low_byte_first():
    data = to_bytes(base().words())
    swapped = bytes(byte for pair in zip(data[1::2], data[::2]) for byte in pair)
    prints(swapped, UNSOUND, "low bytes first")


def old_volume():
    data = (ROOT / "tests/archive/before-technician.volume").read_bytes()
    words = [high << 8 | low for high, low in zip(data[::2], data[1::2])]
    check(words[2] > 0, "the volume from before technicians has entries")
    sound(words, "the volume from before technicians")


def alike():
    """Points, capacity and free words aren't on the page; all else is."""
    entry = dict(sensor=1, method=1, technician=7, time=9, coefficients=(0.0, 1.25, 0.0), points=(8.0, 10.0, 0.0, 0.0))
    first = Volume(2, entries=[Entry(**entry)]).words()
    wanted = page(first)
    same = {
        "points": Volume(2, entries=[Entry(**{**entry, "points": (16.0, 20.0, 0.0, 0.0)})]),
        "capacity": Volume(5, entries=[Entry(**entry)]),
        "free words": Volume(2, entries=[Entry(**entry)], free=lambda: 0xFFFF),
    }
    other = {
        "sensor": Volume(2, entries=[Entry(**{**entry, "sensor": 4})]),
        "method": Volume(2, entries=[Entry(**{**entry, "method": 2})]),
        "technician": Volume(2, entries=[Entry(**{**entry, "technician": 8})]),
        "time": Volume(2, entries=[Entry(**{**entry, "time": 10})]),
        "coefficients": Volume(2, entries=[Entry(**{**entry, "coefficients": (0.0, 1.5, 0.0), "points": (8.0, 12.0, 0.0, 0.0)})]),
        "opening time": Volume(2, times=(0, 0, 1, 0), entries=[Entry(**entry)]),
        "opening": Volume(2, {**DEFAULTS, 3: (-0.0, 0.0, 0.0)}, entries=[Entry(**entry)]),
        "entries": Volume(2, entries=[Entry(**entry)] * 2),
    }
    for what, volume in same.items():
        check(volume.words() != first, f"{what}: the words differ")
        prints(to_bytes(volume.words()), wanted, f"other {what}")
    for what, volume in other.items():
        status, found, _ = ran([PROGRAM], to_bytes(volume.words()))
        check(status == 0 and found != wanted and len(found) % 53 == 0, f"other {what} can't be told from the page")


def pieces():
    """Input that comes slowly, through a pipe."""
    words = base().words()
    data = to_bytes(words)
    full = some_volume(fixed(6), entries=MOST, capacity=MOST).words()
    for given, size, wanted, what in (
        (data, 1, page(words), "a byte at a time"),
        (data, 3, page(words), "three bytes at a time"),
        (data[:-1], 1, UNSOUND, "an odd number of bytes, a byte at a time"),
        (to_bytes(full), 4095, page(full), "a full journal in pieces"),
        (to_bytes(full) + b"\0\0", 4095, UNSOUND, "48130 bytes in pieces"),
    ):
        with subprocess.Popen([PROGRAM], stdin=subprocess.PIPE, stdout=subprocess.PIPE, stderr=subprocess.PIPE, bufsize=0) as program:
            try:
                for at in range(0, len(given), size):
                    program.stdin.write(given[at : at + size])
            except BrokenPipeError:
                check(wanted == UNSOUND, f"{what}: the program didn't read all")
            found = program.communicate(timeout=60)
        equal((program.returncode, *found), (0, wanted, b""), what)


for part in (worked, sound_volumes, lengths, unsound, low_byte_first, old_volume, alike, pieces):
    part()
checks.ended("the printer")
