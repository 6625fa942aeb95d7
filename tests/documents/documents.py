"""documents.py DESK REGISTERS ARCHIVE: what the two manuals state, tried on the library behind DESK (desk.c).

One line for each check, exit status 1 where one failed. A check reads the manual's table or sentence and asks the library for the same, so it fails
where the manual says something else, and where it says nothing."""

import re
import string
import struct
import subprocess
import sys
from fractions import Fraction
from math import floor

CLOCK = 1767225600
INFINITY = [0x7F80, 0]
SENSORS = range(1, 5)
PARAMETERS = (130, 138, 146, 230, 330, 338, 430)
SERIAL, RADIO = 1, 2
RTU, ASCII, ANY = r"[0-9A-F]{2}( [0-9A-F]{2})+", r":.*", r".*"  # frames of the dialogues


# ---- floats and words


def words_of(value):
    return list(struct.unpack(">HH", struct.pack(">f", value)))


def float_of(words):
    return struct.unpack(">f", struct.pack(">HH", *words))[0]


def f32(value):
    """The nearest binary32."""
    return float_of(words_of(float(value)))


def beyond(value, step):
    """The next binary32 above (step 1) or below (step -1)."""
    if value == 0:
        return float_of([0x0000 if step > 0 else 0x8000, 1])
    bits = struct.unpack(">i", struct.pack(">f", value))[0]
    return struct.unpack(">f", struct.pack(">i", bits + (step if value > 0 else -step)))[0]


def hexadecimal(numbers, digits):
    return " ".join(f"{number:0{digits}X}" for number in numbers)


# ---- the manuals


class Manual:
    def __init__(self, path):
        with open(path, encoding="utf-8") as file:
            self.text = file.read()

    def table(self, *header):
        """The rows of the table whose first columns have these names."""
        start = "| " + " | ".join(header) + " |"
        lines = iter(self.text.splitlines())
        if not any(line.startswith(start) for line in lines):
            raise AssertionError(f"there is no table with {start}")
        next(lines)
        rows = []
        for line in lines:
            if not line.startswith("|"):
                return rows
            rows.append([cell.strip() for cell in line.strip("|").split("|")])
        return rows

    def says(self, pattern):
        """What a sentence gives for the groups of a pattern; line ends are spaces."""
        found = re.search(pattern, re.sub(r"\s+", " ", self.text))
        assert found, f"nothing says: {pattern}"
        return found.groups()

    def dialogue(self, pattern, marks=(">", "<")):
        """Clock, request, reply and what is said of the request, of each exchange with these marks whose frames match a pattern."""
        clock, request, out = 0, None, []
        for mark, text, said in re.findall(rf"^    (@|{'|'.join(marks)})(?: (.*?))?(?:  (.*))?$", self.text, re.M):
            if mark == "@":
                clock = int(text)
            elif not re.fullmatch(pattern, text):
                continue
            elif mark == marks[0]:
                request = text, said
            else:
                out.append((clock, request[0], text, request[1]))
        assert out, f"no frame matches {pattern}"
        return out

    def worked(self):
        lines = re.findall(r"^    ((?:[0-9A-F]{4} ){7}[0-9A-F]{4})$", self.text, re.M)
        return [int(word, 16) for line in lines for word in line.split()]


def number(text):
    return int(text, 0)


def numbers(text):
    """The numbers of "10..11" or "6"."""
    first, _, last = text.replace("+", "").partition("..")
    return list(range(int(first), int(last or first) + 1))


def codes(text):
    return [number(code) for code in re.findall(r"0x[0-9A-F]{2}\b", text)]


# ---- the library


def crc(data, reflected=0xA001, initial=0xFFFF):
    value = initial
    for byte in data:
        value ^= byte
        for _ in range(8):
            value = (value >> 1) ^ (reflected if value & 1 else 0)
    return value


class Desk:
    def __init__(self, path):
        self.pipe = subprocess.Popen([path], stdin=subprocess.PIPE, stdout=subprocess.PIPE, text=True)

    def ask(self, *lines):
        """The answers to a few lines."""
        self.pipe.stdin.write("".join(f"{line}\n" for line in lines))
        self.pipe.stdin.flush()
        return [self.pipe.stdout.readline().strip() for _ in lines]

    def call(self, line):
        """The number that a call gives."""
        return int(self.ask(line)[0])

    def by(self, port):
        """The port of the frames that follow."""
        assert self.call(f"port {port}") == 0

    def fresh(self, words=136):
        assert self.call("fresh 1") == 0 and self.call(f"begin {words}") == 0

    def measure(self, sensor, raw1, raw2=0.0, present=True):
        first, second = (hexadecimal([bits], 8) for bits in struct.unpack(">II", struct.pack(">ff", raw1, raw2)))
        assert self.call(f"measure {sensor} {int(present)} {first} {second}") == 0

    def load(self, words):
        assert self.call(f"load {hexadecimal(words, 4)}") == 0

    def words(self):
        return [int(word, 16) for word in self.ask("words")[0].split()]

    def frame(self, *body, clock=CLOCK):
        """The reply's bytes to a body, without its checksum."""
        return self.frames([body], clock)[0]

    def frames(self, bodies, clock=CLOCK):
        replies = []
        for answer in self.ask(*(f"frame {clock} {hexadecimal(sealed(body), 2)}" for body in bodies)):
            refused, *reply = (int(byte, 16) for byte in answer.split())
            assert refused == 0
            assert sealed(reply[:-2]) == reply, "the reply's checksum"
            replies.append(reply[:-2])
        return replies

    def characters(self, text, clock=CLOCK):
        """The reply's characters to those of an ASCII frame; "" for none."""
        refused, *reply = self.ask(f"ascii {clock} {text.encode('latin-1').hex(' ')}")[0].split()
        assert refused == "0"
        return bytes.fromhex("".join(reply)).decode("latin-1")

    def read(self, start, count=1):
        """The words, or a code."""
        reply = self.frame(1, 3, *two(start), *two(count))
        return reply[2] if reply[1] & 0x80 else [high * 256 + low for high, low in zip(reply[3::2], reply[4::2])]

    def write(self, start, *words, clock=CLOCK):
        """0, or a code. One word goes by function 6, more by function 16."""
        body = [1, 6, *two(start), *two(words[0])]
        if len(words) > 1:
            body = [1, 16, *two(start), *two(len(words)), 2 * len(words), *(byte for word in words for byte in two(word))]
        reply = self.frame(*body, clock=clock)
        return reply[2] if reply[1] & 0x80 else 0

    def calibrate(self, sensor, coefficients=(), method=0, points=(), clock=CLOCK):
        """Mode on, what is given, update: 0, or the update's code. Mode stays on."""
        at = 100 * sensor
        assert self.write(at + 5, 0xE000) == 0
        if method:
            assert self.write(at + 6, method) == 0
        for k, value in enumerate(coefficients):
            assert self.write(at + 10 + 2 * k, *words_of(value)) == 0
        for k, words in enumerate(points):
            assert self.write(at + 16 + 2 * k, *words) == 0
        return self.write(at + 5, 0xE001, clock=clock)


def two(word):
    return [word >> 8, word & 0xFF]


def sealed(body):
    checksum = crc(body)
    return [*body, checksum & 0xFF, checksum >> 8]


def lrc(data):
    return -sum(data) % 256


def spelled(body):
    """The characters of an ASCII frame."""
    return ":" + "".join(f"{byte:02X}" for byte in [*body, lrc(body)]) + "\r\n"


def equal(got, expected, what):
    assert got == expected, f"{what}: {got} instead of {expected}"


# ---- docs/REGISTERS.md


def checksum(desk, registers, _):
    polynomial, reflected, initial, text, value = registers.says(
        r"polynomial (0x\w+) \(reflected (0x\w+)\), initial value (0x\w+), no final xor; of the text \"(\w+)\" it is (0x\w+)"
    )
    equal(int(f"{number(polynomial):016b}"[::-1], 2), number(reflected), "the reflected polynomial")
    for data, expected in ((text.encode(), number(value)), ([1, 3, 0, 0, 0, 1], crc([1, 3, 0, 0, 0, 1]))):
        equal(crc(data, number(reflected), number(initial)), expected, "a checksum")
    registers.says("ends with its CRC-16, low byte first")


def size_of(text, count):
    """The number of "8" or "9 + 2 × count"."""
    terms = [term.split(" × ") for term in text.split(" + ")]
    return sum(int(first) * (count if then == ["count"] else 1) for first, *then in terms)


def parts_of(layout, given):
    """The bytes of a layout such as "address (1), words (2 × count), CRC (2)", without the CRC, with what is given for each part."""
    out = []
    *parts, last = layout.split(", ")
    equal(last, "CRC (2)", "the last part")
    for part in parts:
        name, size = re.fullmatch(r"(.+) \((.+)\)", part).groups()
        value = given[name]
        if isinstance(value, list):
            value = int("".join(f"{word:04X}" for word in value), 16)
        out += value.to_bytes(size_of(size, given.get("count")), "big")
    return out


def layouts(desk, registers, _):
    registers.says(r"In ASCII the LRC \(1\) stands in the place of the CRC \(2\), and the length is in characters, from the colon to LF")
    one, both = [CLOCK >> 16, CLOCK & 0xFFFF, 0, 0, 0], [0x3F90, 0]
    played = {
        "3": {"start": 2, "count": 5, "words": one},
        "6": {"register": 206, "word": 2},
        "16": {"start": 212, "count": 2, "words": both},
        "22": {"register": 206, "A": 0, "B": 1},
        "refused": {"function": 6, "register": 0, "word": 5, "code": 0xC2, "function with 0x80 set": 0x86},
    }
    rows = layout_rows(registers)
    equal(list(played), [row[0] for row in rows], "functions")
    six = next(row for row in rows if row[0] == "6")
    for ascii in (False, True):
        desk.fresh()
        assert desk.write(205, 0xE000) == 0
        for function, request, *lengths, reply, bytes_back, characters_back in rows:
            given = {"address": 1, "function": int(function) if function != "refused" else 6, **played[function]}
            given["byte count"] = 2 * given.get("count", 0)
            if function == "3":  # the counters are those before the frame
                given["words"] = one[:2] + desk.read(4, 3)
                given["words"][2] += 1
            if function == "refused":
                request, *lengths = six[1:4]
            request = parts_of(request, given)
            reply = request if reply == "as the request" else parts_of(reply, given)
            for length, characters, body in ((*lengths, request), (bytes_back, characters_back, reply)):
                equal(len(sealed(body)), size_of(length, given.get("count")), f"the bytes of {function}")
                equal(len(spelled(body)), size_of(characters, given.get("count")), f"the characters of {function}")
            if ascii:
                equal(desk.characters(spelled(request)), spelled(reply), f"the reply to {function} in ASCII")
            else:
                equal(desk.frame(*request), reply, f"the reply to {function}")
        equal(desk.read(206), [1], "what function 22 wrote")
        equal(desk.read(212, 2), both, "what function 16 wrote")


def layout_rows(registers):
    return registers.table("Function", "Request", "RTU bytes", "ASCII characters", "Reply", "RTU bytes", "ASCII characters")


def good_ascii(registers):
    """The worked frame, after its sum and LRC were worked anew."""
    data, total, low, same, value, text = registers.says(
        r"Of the bytes ((?:[0-9A-F]{2} )+)the sum is (0x\w+), its low byte (0x\w+), and 0x100 - (0x\w+) = (0x\w+); the frame is `(:\w+)` with CR LF"
    )
    body = bytes.fromhex(data)
    equal([number(total), number(low), number(same)], [sum(body), sum(body) % 256, sum(body) % 256], "the sum")
    equal([number(value), text + "\r\n"], [0x100 - sum(body) % 256, spelled(body)], "the LRC and the frame")
    return text + "\r\n"


def ascii_checksum(desk, registers, _):
    good = good_ascii(registers)
    desk.fresh()
    equal(desk.characters(good), good, "the reply to the worked frame")
    modulus, = registers.says(r"The LRC is the two's complement of the sum of the bytes before it, modulo (\d+)")
    equal(int(modulus), 0x100, "the modulus")
    low, = registers.says("A sum whose low byte is 0 has the LRC ([0-9A-F]+)\\.")
    registers.says("All bytes with the LRC add up to a low byte of 0")
    equal(desk.characters(f":010300640098{low}\r\n"), spelled([1, 0x83, 3]), "the reply to a frame whose sum is 0x100")


def sized(n):
    """A frame of n bytes before its checksum, in RTU and in ASCII; where its length is answered, it is refused by 3."""
    body = [1, 3, *[0] * 257][:n]
    return sealed(body), spelled(body)


def replies_to(desk, rtu, ascii):
    """The number and the reply to an RTU frame, and the reply to an ASCII frame, of a fresh sonde."""
    desk.fresh()
    return desk.ask(f"frame 0 {hexadecimal(rtu, 2)}")[0], desk.characters(ascii)


REFUSED = f"0 {hexadecimal(sealed([1, 0x83, 3]), 2)}", spelled([1, 0x83, 3])  # the replies to such frames


def lengths(desk, registers, _):
    """Frames with 0 to 258 bytes before their checksum: those of the lengths that the manual gives are answered, the others count as bad."""
    factor, plus = map(int, registers.says(r"A frame of n bytes in RTU has (\d+) × n \+ (\d+) characters in ASCII"))
    answered = []
    for n in range(259):
        frames = sized(n)
        equal(factor * len(frames[0]) + plus, len(frames[1]), "the characters")
        replies = replies_to(desk, *frames)
        if replies != ("0", ""):
            equal(replies, REFUSED, f"the replies to {n} bytes in both framings")
            answered.append(n)
        equal(desk.read(4, 3), [2, 0, 2] if n in answered else [0, 2, 0], f"the counters after {n} bytes in both framings")
    equal(answered, list(range(min(answered), max(answered) + 1)), "the lengths that are answered")
    given = registers.says(r"An RTU frame has (\d+) to (\d+) bytes") + registers.says(r"(\d+) to (\d+) bytes with the LRC, that is (\d+) to (\d+) characters")
    ends = min(answered), max(answered)
    equal(list(map(int, given)), [*(n + 2 for n in ends), *(n + 1 for n in ends), *(2 * n + 5 for n in ends)], "the least and greatest lengths")
    rows = {row[0]: row[-1] for row in layout_rows(registers)}
    longest, shortest = map(int, registers.says(r"A reply has at most (\d+) characters, an exception (\d+)\."))
    equal([longest, shortest], [size_of(rows["3"], 125), size_of(rows["refused"], None)], "the longest reply and an exception")


def bad_ascii(desk, registers, _):
    good = good_ascii(registers)
    pairs = good[1:-2]
    listed = {}
    for what, example in registers.table("Bad", "Example"):
        text = "".join(quoted or {"CR": "\r", "LF": "\n"}[named] for quoted, named in re.findall(r"`([^`]*)`|(\w+)", example))
        listed[what] = text
        desk.fresh()
        equal(desk.characters(text), "", f"the reply to {example}")
        equal(desk.read(4, 3), [0, 1, 0], f"the counters after {example}")
    frames = {
        "a digit in lower case": ":010600cde0004C\r\n",
        "a blank or another character among the digits": f":{pairs[:2]} {pairs[2:]}\r\n",
        "an odd number of digits": f":{pairs}0\r\n",
        "no colon": f"{pairs}\r\n",
        "two colons": f"::{pairs}\r\n",
        "a byte before the colon": f"0{good}",
        "a byte behind LF": f"{good}0",
        "LF without CR": f":{pairs}\n",
        "LF before CR": f":{pairs}\n\r",
        "no LF": f":{pairs}\r",
        "another LRC": ":010600CDE0004D\r\n",
        "address and LRC alone": spelled([1]),
        "the LRC alone": spelled([]),
        "no byte at all": ":\r\n",
    }
    equal(listed, frames, "the bad frames")
    registers.says("one with its top bit set breaks the form")
    for at, character in enumerate(good):
        desk.fresh()
        equal(desk.characters(good[:at] + chr(ord(character) | 0x80) + good[at + 1 :]), "", f"the reply with the top bit of character {at} set")
        equal(desk.read(4, 3), [0, 1, 0], "the counters after it")


def digits(desk, registers, _):
    """Every byte as a digit, the first of a read's start, which doesn't exist whatever the digit."""
    first, last, tenth, sixteenth = registers.says(r"digits are (\w) to (\w) and (\w) to (\w), the high one first")
    for character in map(chr, range(256)):
        is_digit = first <= character <= last or tenth <= character <= sixteenth
        check = lrc([1, 3, 16 * (int(character, 16) if character in string.hexdigits else 0) + 9, 0, 0, 1])
        desk.fresh()
        reply = desk.characters(f":0103{character}9000001{check:02X}\r\n")
        equal(reply, spelled([1, 0x83, 2]) if is_digit else "", f"the reply with the digit {character!r}")
        equal(desk.read(4, 3), [1, 0, 1] if is_digit else [0, 1, 0], f"the counters after the digit {character!r}")


def summed(text, body):
    """What a text such as "0x01 + 0x03 = 0x04, and 0x100 - 0x04 = 0xFC" says of a body and its LRC."""
    terms, total, low, value = re.fullmatch(r"(.+) = (0x\w+), and 0x100 - (0x\w{2}) = (0x\w{2})", text).groups()
    equal([number(term) for term in terms.split(" + ")], list(body), "the bytes that are added")
    equal([number(total), number(low), number(value)], [sum(body), sum(body) % 256, lrc(body)], "sum, low byte and LRC")


def ascii_exchange(desk, registers, _):
    """The two tables, character by character; they are the first exchange of the ASCII dialogue. Then the exception in it."""
    dialogue = registers.dialogue(ASCII)
    clock, *first, _ = dialogue[0]
    desk.fresh()
    equal(desk.characters(first[0] + "\r\n", clock), first[1] + "\r\n", "the first reply")
    for name, line in zip(("Request", "Reply"), first):
        rows = registers.table(name, "On the line", "Bytes", "What it is")
        ends = {"CR": "\r", "LF": "\n"}
        texts = [ends[cell] if cell in ends else cell.strip("`") for cell, *_ in rows]
        equal("".join(texts), line + "\r\n", f"the characters of the {name}")
        size, = registers.says(rf"[Tt]he {name.lower()} has (\d+) characters:")
        equal(int(size), len(line) + 2, f"the length of the {name}")
        equal([row[3] for row in (rows[0], *rows[-2:])], ["the frame begins", "carriage return", "line feed: the frame ends"], "the frame's ends")
        for text, (_, sent, data, what) in zip(texts, rows):
            equal(sent, hexadecimal(text.encode(), 2), f"{name} on the line")
            equal(data.replace(" ", ""), text if text.isalnum() else "", f"bytes of the {name}")
            if text.isalnum() and not what.startswith("LRC"):
                equal(int(re.findall(r"\d+", what)[-1]), int(text, 16), f"{name}: {what}")
        named = [int(register) for *_, what in rows for register in re.findall(r"register (\d+)", what)]
        equal(named, [7, 8] if name == "Reply" else [7], f"registers of the {name}")
        summed(rows[-3][3].removeprefix("LRC: "), bytes.fromhex("".join(texts[1:-3])))
    text, address, function, refused, code, check, sums = registers.says(
        r"The exception in it, `(:\w+)`, is address (\w+), function (\w+) with 0x80 set, which is (\w+), the code (\w+), and the LRC (\w+): ([^.]+)\."
    )
    assert text in [reply for _, _, reply, _ in dialogue], f"{text} isn't in the dialogue"
    equal(f":{address}{refused}{code}{check}", text, "the exception")
    equal(int(function, 16) | 0x80, int(refused, 16), "its function")
    summed(sums, bytes.fromhex(address + refused + code))


COMMANDS = {"mode on": 0xE000, "update": 0xE001, "mode off": 0xE002}
PLACES = {"offset": 10, "slope": 12, "x1": 16, "y1": 18}


def said(desk, registers, _):
    """What stands behind the requests of the two dialogues is what the frames carry."""
    for pattern in (RTU, ASCII):
        updated, written = None, {}
        for clock, request, reply, what in registers.dialogue(pattern):
            body, answer = (bytes.fromhex(text[1:-2]) if pattern is ASCII else bytes.fromhex(text)[:-2] for text in (request, reply))
            name = re.match(r"mode o\w+|update|method|last calibration|capacity|\w+", what).group()
            offset, word = int.from_bytes(body[2:4], "big") % 100, int.from_bytes(body[-2:], "big")
            refused = answer[1] & 0x80
            back = [int.from_bytes(answer[k : k + 2], "big") for k in range(3, len(answer) - 1, 2)]
            figures = [float(figure) for figure in re.findall(r"-?\d+(?:\.\d+)?", what.partition(";")[0])]
            if name in COMMANDS:
                equal((offset, word, bool(refused)), (5, COMMANDS[name], ":" in what), what)
                code = {"outside": 0x97, "full": 0xC0}.get((re.findall("outside|full", what) or [None])[0], 0)
                equal(answer[2] if refused else 0, code, what)
                equal([written["y1"] / written["x1"]] if figures else [], figures, what)
                updated = clock if name == "update" and not refused else updated
            elif name == "method":
                equal((offset, word, what.split(": ")[1]), (6, figures[0], {1: "one point", 2: "two points"}[word]), what)
            elif name == "last calibration":
                equal(back, [updated >> 16, updated & 0xFFFF], what)
            elif name == "capacity":
                equal((body[3], back), (7, figures), what)
            elif name == "technician":
                equal((offset, word), (9, figures[0]), what)
            elif body[1] == 3:
                equal((offset, [float_of(back[:2]), float_of(back[2:])]), (10, figures), what)
            else:
                written[name] = float_of(struct.unpack(">HH", body[-4:]))
                equal((offset, written[name]), (PLACES[name], figures[-1 if name[0] in "xy" else 0]), what)


def order(desk, registers, _):
    """For each two neighbours in the table of exceptions a frame that both fit: the upper one is answered."""
    rows = registers.table("Code", "When")
    listed = [number(row[0]) for row in rows]
    desk.fresh(88)
    equal(desk.calibrate(1), 0, "an update into the last entry")
    assert desk.write(206, 1) == 0x92 and desk.write(205, 0xE000) == 0 and desk.write(206, 1) == 0
    for first, then, body in (
        (1, 3, [1, 4, 0]),
        (3, 2, [1, 3, 0, 10, 0, 0]),
        (2, 0x80, [1, 16, 0, 9, 0, 2, 4, 0, 0, 0, 0]),
        (0x80, 0xC2, [1, 6, 0, 2, 0, 0]),
        (0xC2, None, [1, 6, 0, 0, 0, 0]),
        (0x92, 0x84, [1, 16, 1, 0x9A, 0, 2, 4, 0x7F, 0x80, 0, 0]),
        (0x84, None, [1, 6, 0, 0x69, 0xE0, 3]),
        (0x97, 0xC0, [1, 6, 0, 0xCD, 0xE0, 1]),
        (0xC0, None, [1, 6, 0, 0x69, 0xE0, 1]),
    ):
        equal(desk.frame(*body)[2], first, f"the code of {hexadecimal(body, 2)}")
        assert listed.index(first) < (len(listed) if then is None else listed.index(then)), f"{then:#x} stands above {first:#x}"
    equal(len(listed), 9, "the number of codes")


def broadcast(desk, registers, _):
    """At address 0: what each kind of frame adds to the counters good, bad and exceptions."""
    registers.says("A frame of function 3 counts as good there, whatever its shape, and nothing else happens")
    registers.says("a refused write and another function also count as exceptions")
    for body, good, exceptions in (
        ([0, 3, 0, 0, 0, 1], 1, 0),
        ([0, 3, 0, 9, 0, 0], 1, 0),
        ([0, 3], 1, 0),
        ([0, 6, 0, 0x85, 0, 2], 1, 0),
        ([0, 6, 0, 0x85, 0, 7], 1, 1),
        ([0, 6, 0], 1, 1),
        ([0, 4, 0, 0, 0, 1], 1, 1),
    ):
        desk.fresh()
        equal(desk.ask(f"frame 0 {hexadecimal(sealed(body), 2)}"), ["0"], f"the number and the reply to {hexadecimal(body, 2)}")
        equal(desk.read(4, 3), [good, 0, exceptions], f"the counters after {hexadecimal(body, 2)}")


def counts(desk, registers, _):
    """Reads of 0 to 130 registers that don't exist, on either port: code 3 where the manual says so, else 2. Function 16 takes the most words that fit."""
    serial, radio, words = map(int, registers.says(r"a count that isn't 1\.\.(\d+) \(read; by radio 1\.\.(\d+)\) or 1\.\.(\d+) \(16\)"))
    equal(registers.says(r"A read takes 1 to (\d+) registers \(by radio 1 to (\d+)\)"), (str(serial), str(radio)), "what a read takes")
    desk.fresh()
    for port, most in ((SERIAL, serial), (RADIO, radio)):
        desk.by(port)
        for count in (*range(131), 0x8001, 0xFFFF):
            equal(desk.read(500, count), 2 if 1 <= count <= most else 3, f"a read of {count} registers on port {port}")
    desk.by(SERIAL)
    request = next(row[2] for row in layout_rows(registers) if row[0] == "16")
    longest, = registers.says(r"An RTU frame has \d+ to (\d+) bytes")
    assert size_of(request, words) <= int(longest) < size_of(request, words + 1), f"{words} words aren't the most that fit"
    for count, code in ((0, 3), (words, 2)):
        equal(desk.frame(1, 16, 0, 100, 0, count, 2 * count, *[0] * 2 * count), [1, 0x90, code], f"{count} words")


def past_the_end(desk, registers, _):
    code, = (number(row[0]) for row in registers.table("Code", "When") if "past 0xFFFF" in row[1])
    desk.fresh()
    equal(desk.read(0xFFFF, 2), code, "a read past 0xFFFF")
    equal(desk.write(0xFFFF, 0, 0), code, "a write past 0xFFFF")


def fields(registers):
    """Every field of the manual: register, words, type, access, codes of a write, what it is."""
    for register, kind, access, what, given in registers.table("Register", "Type", "Access", "What it shows"):
        yield numbers(register), kind, access, codes(given), what
    for offset, kind, access, sensors, what, given in registers.table("Offset", "Type", "Access", "Sensors"):
        for sensor in SENSORS if sensors == "all" else map(int, sensors.split(", ")):
            yield [100 * sensor + n for n in numbers(offset)], kind, access, codes(given), what
    for sensor, k, *_ in registers.table("Sensor", "k", "Parameter"):
        start = 100 * int(sensor) + 30 + 8 * (int(k) - 1)
        for offset, kind, access, what, given in registers.table("From there", "Type", "Access"):
            if "(W: level)" in access:
                level = sensor == "3" and k == "2"
                access, given = ("W", given.partition("level:")[2]) if level else ("R", given.partition("(")[0])
            yield [start + n for n in numbers(offset)], kind, access, codes(given), what


def existing(desk, registers, _):
    """The registers that a read finds, of all 65536, are those of the tables."""
    desk.fresh()
    listed = sorted(register for field in fields(registers) for register in field[0])
    found = []
    for start in range(0, 0x10000, 256):
        replies = desk.frames([[1, 3, *two(register), 0, 1] for register in range(start, start + 256)])
        found += [start + n for n, reply in enumerate(replies) if reply[1] == 3]
    equal(found, listed, "the registers")


def access(desk, registers, _):
    """Types, access and codes: each field is written whole, in half, with values that aren't listed, mode off and on."""
    for at, kind, letter, given, what in fields(registers):
        name = f"register {at[0]}, {what}"
        equal(len(at), {"word": 1, "float": 2, "time": 2}[kind], name)
        desk.fresh()
        if at[0] >= 100:
            desk.measure(at[0] // 100, 1.0)
        command, mode = "command" in what, at[0] // 100 * 100 + 5
        old = desk.read(at[0], len(at))
        assert isinstance(old, list), name
        seen = set()
        if len(at) == 2:
            equal(desk.write(at[0], 0), 0x80, f"{name}, one half")
            equal(desk.write(at[1], 0), 0x80, f"{name}, one half")
        if letter == "M":
            equal(desk.write(at[0], *old), 0x92, f"{name}, mode off")
            seen.add(0x92)
            assert desk.write(mode, 0xE000) == 0
        if command:
            seen.add(desk.write(at[0], 0xE001))
            assert desk.write(at[0], 0xE000) == 0 and desk.read(at[0]) == [1]
            seen |= refused_updates(desk, at[0] // 100)
            desk.fresh()
        bad = desk.write(at[0], *{"word": [0xFFFF], "float": INFINITY, "time": [0xFFFF, 0xFFFF]}[kind])
        if letter != "R":
            equal(bad, 0 if kind == "time" or at == [9] else 0x84, f"{name}, a {kind} that isn't listed or finite")
        seen.add(bad)
        good = desk.write(at[0], *([0xE000] if command else old))
        equal(good == 0, letter in "WM", f"{name}, {letter}")
        seen.add(good)
        equal(sorted(seen - {0}), sorted(given), f"{name}, what a write gives")


def refused_updates(desk, sensor):
    """The codes of an update with a candidate outside the limits, and of one with a full journal."""
    desk.fresh(88)
    outside = desk.calibrate(sensor, [1e6])
    desk.fresh(88)
    assert desk.calibrate(sensor) == 0
    return {outside, desk.write(100 * sensor + 5, 0xE001)}


def parameter_rows(registers):
    return registers.table("Sensor", "k", "Parameter", "Id", "Units (the first is the default)", "Available")


def parameters(desk, registers, _):
    """Ids, units, conversions, available units and defaults."""
    desk.fresh()
    level_default, = registers.says(r"of the level (\d) depth \(default\), 4 depth to water or 5 surface elevation")
    sentinel, = registers.says(r"sentinel, default ([0-9.]+)")
    bases = [int(base) for base in re.findall(r"\d+", registers.says(r"is the units id n above ([0-9, or]+)")[0])]
    raws = {1: (1234.5, 20.0), 2: (8.0, 0.0), 3: (14.7, 0.0), 4: (5.0, 0.0)}
    for sensor, raw in raws.items():
        desk.measure(sensor, *raw)
    rows = parameter_rows(registers)
    for sensor, k, name, ids, units, available in rows:
        at = 100 * int(sensor) + 30 + 8 * (int(k) - 1)
        ids = [int(n) for n in re.findall(r"\d+", ids)]
        units = [re.fullmatch(r"(\d+) (\S+)(?: = psi × ([0-9.]+))?", unit).groups() for unit in units.split(", ")]
        listed = [int(unit[0]) for unit in units]
        id_, unit, quality, high, low, bits = desk.read(at + 2, 6)
        equal(id_, int(level_default) if name == "level" else ids[0], f"{name}, id")
        equal(unit, listed[0], f"{name}, default units")
        equal(quality, 0, f"{name}, quality")
        equal(float_of([high, low]), float(sentinel), f"{name}, sentinel")
        equal(bits, number(available), f"{name}, available units")
        equal(bits, sum(1 << n - max(base for base in bases if base <= n) for n in listed), f"{name}, bits of its units")
        equal([n for n in range(300) if desk.write(at + 3, n) == 0], listed, f"{name}, units")
        assert desk.write(at + 3, listed[0]) == 0
        if len(ids) > 1:
            equal([n for n in range(300) if desk.write(at + 2, n) == 0], ids, f"{name}, ids")
            assert desk.write(at + 2, ids[0]) == 0
        value = float_of(desk.read(at, 2))
        for unit, symbol, factor in units:
            assert desk.write(at + 3, int(unit)) == 0
            expected = f32(value * f32(factor)) if factor else f32(f32(value * f32(1.8)) + 32) if symbol == "°F" else value
            equal(float_of(desk.read(at, 2)), expected, f"{name} in {symbol}")
    equal(desk.read(107) + desk.read(207) + desk.read(307) + desk.read(407), [3, 1, 2, 1], "numbers of parameters")
    equal(sorted((int(row[0]), int(row[1])) for row in rows), [(1, 1), (1, 2), (1, 3), (2, 1), (3, 1), (3, 2), (4, 1)], "parameters")


def bounds(cells):
    """(default or None, lowest, highest) of each coefficient of a table's row; None for +0."""
    for cell in cells:
        found = re.search(r"(?: (-?[0-9.]+), |\()(-?[0-9.]+?)\.\.(-?[0-9.]+)", cell)
        yield found and tuple(n and float(n) for n in found.groups())


def limits(desk, registers, archive):
    """Defaults, and both limits of each coefficient with its two neighbours. The two manuals' limits are the same."""
    registers.says("they are inclusive. They, and every constant on this page, are the binary32 nearest to the decimal")
    archive.says("Limits are inclusive. They and every constant on this page are the floats nearest to their decimals")
    rows = registers.table("Sensor", "Coefficient 1 (default, limits)")
    others = archive.table("Sensor", "Raw value", "Reading")
    equal([int(row[0]) for row in rows], list(SENSORS), "sensors")
    for (sensor, *cells), other in zip(rows, others):
        listed = list(bounds(cells))
        equal([b and b[1:] for b in bounds(other[3:])], [b and b[1:] for b in listed], f"sensor {sensor}, limits of docs/ARCHIVE.md")
        start = [b[0] for b in listed if b]
        desk.fresh()
        equal([float_of(desk.read(100 * int(sensor) + 10 + 2 * k, 2)) for k in range(len(start))], start, f"sensor {sensor}, defaults")
        for k, (_, low, high) in enumerate(b for b in listed if b):
            for limit, step in ((f32(low), -1), (f32(high), 1)):
                for value, code in ((limit, 0), (beyond(limit, -step), 0), (beyond(limit, step), 0x97)):
                    desk.fresh()
                    got = desk.calibrate(int(sensor), start[:k] + [value] + start[k + 1 :])
                    equal(got, code, f"sensor {sensor}, coefficient {k + 1} = {value!r}")


def readings(desk, registers, _):
    """What isn't finite: an infinite conductivity, and a pressure whose conversion alone overflows."""
    quality, = registers.says(r"resistivity goes by the conductivity, and is quality (\d) where that is infinite")
    registers.says("the level goes by the pressure in psi, and an overflow of the pressure's conversion doesn't touch it")
    desk.fresh()
    equal(desk.calibrate(1, [0.0, 4.0]), 0, "the calibration")
    assert desk.write(105, 0xE002) == 0
    desk.measure(1, 3e38)
    equal(desk.read(142) + desk.read(150), [int(quality)] * 2, "qualities of conductivity and resistivity")
    assert desk.write(151, *words_of(-1.0)) == 0
    equal(desk.read(146, 2), words_of(-1.0), "the resistivity, which is its sentinel")
    desk.measure(3, 3e38)
    assert desk.write(333, 21) == 0
    equal(desk.read(334) + desk.read(342), [3, 0], "qualities of pressure and level")
    most, = registers.says(r"1000000 / conductivity as shown, (\d+) at either zero")
    for zero in (0.0, -0.0):
        desk.fresh()
        desk.measure(1, zero)
        assert desk.write(105, 0xE000) == 0
        equal(desk.read(138, 2) + desk.read(146, 2), words_of(zero) + words_of(float(most)), "conductivity and resistivity at zero")


def in_mode(desk, registers, _):
    """In mode the raw is shown, converted; the level is L of the pressure by coefficient 1 in force."""
    registers.says("and the conversion to the units comes last, in mode too")
    factor, = registers.says(r"With L\(p\) = p × ([0-9.]+) / 1.0")
    registers.says(r"the level L\(Pm\) whatever its id \(Pm by c1 in force\)")
    desk.fresh()
    equal(desk.calibrate(3, [2.0, 5.0, 1.0]), 0, "the calibration")
    desk.measure(3, 14.5)
    assert desk.write(310, *words_of(9.0)) == 0 and desk.write(340, 4) == 0 and desk.write(333, 19) == 0
    equal(desk.read(330, 2), words_of(f32(14.5 * f32(6.894757))), "the pressure in mode, in kPa")
    equal(desk.read(338, 2), words_of(f32(12.5 * f32(float(factor)))), "the level in mode")
    desk.measure(1, 1.0, 20.0)
    assert desk.write(105, 0xE000) == 0 and desk.write(133, 2) == 0
    equal(desk.read(130, 2), words_of(f32(f32(20 * f32(1.8)) + 32)), "the temperature in mode, in °F")


def calibration(desk, registers, _):
    """Points that give no candidate, and what an update leaves."""
    code, = registers.says(r"x1 = 0 \(either zero\) by method 1 and x1 = x2 by method 2 are refused \((0x97)\)")
    registers.says("x is the raw value, as the sonde shows it in mode, and y the standard's value")
    for method, x1, x2 in ((1, 0.0, 0.0), (1, -0.0, 0.0), (2, 5.0, 5.0), (2, 0.0, -0.0)):
        desk.fresh()
        points = [words_of(value) for value in (x1, 1.0, x2, 2.0)]
        equal(desk.calibrate(4, [], method, points), number(code), f"method {method}, x1 = {x1}, x2 = {x2}")
    update = next(row[1] for row in registers.table("Command", "What it does") if row[0] == "0xE001")
    for words in ("becomes the trial too", "show it at once", "Last calibration is the clock", "next becomes 0", "method, points and mode stay"):
        assert words in update, f"the update's row doesn't say: {words}"
    desk.fresh()
    desk.measure(1, 1000.0)
    assert desk.write(103, 1, 2) == 0 and desk.write(105, 0xE000) == 0
    equal(desk.read(138, 2), words_of(1000.0), "the raw value in mode")
    points = [words_of(value) for value in (1000.0, 1250.0, 0.0, 0.0)]
    equal(desk.calibrate(1, [], 1, points, clock=77), 0, "an update")
    equal(desk.read(101, 6), [0, 77, 0, 0, 1, 1], "last, next, mode, method after an update")
    equal(desk.read(110, 4), words_of(0.0) + words_of(1.25), "coefficients after an update")
    equal(desk.read(116, 8), [word for point in points for word in point], "points after an update")
    for command, text in registers.table("Command", "What it does"):
        equal(desk.write(205, number(command)), 0, f"command {command}")
    equal([n for n in range(0xDFF0, 0xE010) if desk.write(205, n) == 0x84], [*range(0xDFF0, 0xE000), *range(0xE003, 0xE010)], "other commands")


def refused_by_limits(desk, registers, _):
    """What the coefficients' registers show after each kind of 0x97, and what stays."""
    registers.says("puts the candidate into the trial coefficients, all three")
    registers.says("readings, last and next calibration, mode, method and points stay")
    cases = {  # by the row's first words: method, points, and what is shown, None for what was shown before
        "the candidate is finite": [
            (1, (8.0, 10.0, 0.0, 0.0), (0.0, 1.25)),
            (2, (1.0, 2.0, 2.0, 20.0), (-16.0, 18.0)),
            (2, (3e38, 5.0, -3e38, 6.0), (5.0, -0.0)),
        ],
        "x1 = 0 by method 1": [(1, (-0.0, 1.0, 0.0, 0.0), None), (2, (5.0, 1.0, 5.0, 2.0), None)],
        "a coefficient of the candidate": [(1, (1e-40, 3e38, 0.0, 0.0), None), (2, (1.0, 3e38, 2.0, -3e38), None)],
    }
    rows = registers.table("Why the update is refused", "What registers 10 to 13 (sensor 3: 10 to 15) then show")
    equal(len(rows), len(cases), "rows of reasons")
    for (why, what, _), (name, tries) in zip(rows, cases.items()):
        assert why.startswith(name), f"{why}: not {name}"
        for method, points, shown in tries:
            equal(what, "the candidate" if shown else "what they showed before", why)
            desk.fresh()
            desk.measure(2, 8.0)
            assert desk.write(205, 0xE000) == 0 and desk.write(210, *words_of(0.125)) == 0 and desk.write(203, 1, 2) == 0
            words, reading = [words_of(value) for value in points], desk.read(230, 8)
            equal(desk.calibrate(2, [], method, words), 0x97, f"{why}: {points}")
            equal(desk.read(210, 4), [word for value in shown or (0.125, 1.0) for word in words_of(value)], f"{why}: {points}")
            equal(desk.read(200, 7), [2, 0, 0, 1, 2, 1, method], "number, last, next, mode and method")
            equal(desk.read(216, 8), [word for pair in words for word in pair], "points")
            equal(desk.read(230, 8) + desk.read(8), reading + [0], "reading and entries in use")
    desk.fresh()
    equal(desk.calibrate(3, [2.0, 0.0, -11.0]), 0x97, "the direct method on sensor 3")
    equal(desk.read(310, 6), words_of(2.0) + words_of(0.0) + words_of(-11.0), "what was written, on sensor 3")


def after_a_refusal(desk, registers, _):
    """From points to method 0, what drops the candidate, a full journal, and address 0."""
    for sentence in (
        "By method 0 the update takes what the registers show: a technician who goes from points to method 0 after such a refusal, and writes one coefficient, calibrates with the other one of the refused candidate",
        "0xE002 drops what is shown; so does a restart. After 0xE002 the registers show the coefficients in force again, and a 0xE000 after it starts from those",
        "a candidate outside them is 0x97 and is shown. One within them is 0xC0, which leaves the trial as it was. So does 0x92",
        "At address 0 it is the same without a reply. The exceptions' counter and the registers tell",
    ):
        registers.says(sentence)
    points = [words_of(value) for value in (1.0, 2.0, 2.0, 20.0)]

    def shows(offset, slope, what):
        equal(desk.read(410, 4), words_of(offset) + words_of(slope), what)

    desk.fresh(88)
    for command in (0xE002, 0xE000):
        equal(desk.calibrate(4, [], 2, points), 0x97, "slope 18")
        shows(-16.0, 18.0, "the refused candidate")
        assert desk.write(405, 0xE002) == 0 and desk.write(405, command) == 0
        shows(0.0, 1.0, "what is in force")
    equal(desk.calibrate(4, [], 2, points), 0x97, "slope 18")
    assert desk.write(406, 0) == 0 and desk.write(412, *words_of(7.0)) == 0
    equal(desk.write(405, 0xE001), 0, "an update by method 0, with another slope")
    shows(-16.0, 7.0, "the refused candidate's offset, in force")
    equal(desk.write(405, 0xE001), 0xC0, "a candidate within the limits, a full journal")
    shows(-16.0, 7.0, "after 0xC0")
    assert desk.write(406, 1) == 0 and desk.write(416, *words_of(2.0)) == 0 and desk.write(418, *words_of(17.0)) == 0
    equal(desk.write(405, 0xE001), 0x97, "a candidate outside the limits, a full journal")
    shows(0.0, 8.5, "the candidate, with a full journal")
    assert desk.write(418, *words_of(40.0)) == 0
    exceptions, = desk.read(6)
    equal(desk.ask(f"frame 0 {hexadecimal(sealed([0, 6, 1, 0x95, 0xE0, 1]), 2)}"), ["0"], "number and reply of an update at address 0")
    equal(desk.read(6), [exceptions + 1], "the exceptions")
    shows(0.0, 20.0, "the candidate of an update at address 0")
    assert desk.call("power-up 1") == 0
    shows(-16.0, 7.0, "after a restart")
    equal(desk.write(405, 0xE001), 0x92, "an update with mode off")
    assert desk.write(405, 0xE000) == 0
    shows(-16.0, 7.0, "the trial after a restart")


def who_calibrates(desk, registers, _):
    """The number at 0xE001 goes into the entry; what leaves it, what clears it, and who can write it."""
    for sentence in (
        "the entry carries the number that stands there at its 0xE001, whichever stood at 0xE000",
        "It stays until it is written anew, also after mode off, after a refused update and when a journal is begun",
        "A restart makes it 0. Entries that are accepted then name nobody until a number is given",
        "Functions 6, 16 .* and 22 write it, where a mask goes over the number that stands; a write at address 0 gives it to every sonde of the line",
        "A write of registers 8 and 9 together is 0x80, one of 9 and 10 is 2",
    ):
        registers.says(sentence)

    def technician(entry):
        return desk.words()[64 + 24 * (entry - 1) + 3]

    desk.fresh()
    equal(desk.read(9), [0], "the number of a fresh sonde")
    assert desk.write(9, 5) == 0 and desk.write(105, 0xE000) == 0 and desk.write(9, 0xFFFF) == 0
    equal((desk.write(105, 0xE001), technician(1)), (0, 0xFFFF), "the number at 0xE001")
    equal(desk.write(105, 0xE002), 0, "mode off")
    equal((desk.calibrate(2, [0.0, 9.0]), desk.calibrate(3), technician(2)), (0x97, 0, 0xFFFF), "another sensor's, after a refused update")
    equal(desk.frame(1, 16, 0, 9, 0, 1, 2, 0x12, 0x34), [1, 16, 0, 9, 0, 1], "function 16")
    equal(desk.frame(1, 22, 0, 9, 0xFF, 0, 0, 0x56), [1, 22, 0, 9, 0xFF, 0, 0, 0x56], "function 22")
    equal(desk.read(9), [0x1256], "the number after a mask")
    equal((desk.write(8, 0, 1), desk.write(9, 0, 1), desk.read(9, 2), desk.read(9)), (0x80, 2, 2, [0x1256]), "registers 8 and 9, 9 and 10")
    equal(desk.ask(f"frame 0 {hexadecimal(sealed([0, 6, 0, 9, 0, 8]), 2)}"), ["0"], "a write at address 0")
    assert desk.call("begin 136") == 0
    equal(desk.read(8, 2), [0, 8], "entries in use and the number after a begin")
    assert desk.call("power-up 1") == 0
    equal(desk.read(9), [0], "the number after a restart")
    equal((desk.calibrate(4), technician(1)), (0, 0), "an entry after a restart")


def radio_frames(desk, registers, _):
    """Frames of each length in both framings: in RTU those of the lengths that the manual gives are answered, all others count as bad."""
    least, most = map(int, registers.says(r"An RTU frame has \d+ to \d+ bytes \(by radio (\d+) to (\d+)\)"))
    said = registers.says(r"a frame is in RTU and has (\d+) to (\d+) bytes with its CRC\. One of (\d+) bytes and more counts as bad and gets no reply")
    equal(list(map(int, said)), [least, most, most + 1], "the lengths and the first beyond them")
    registers.says("counts as bad and gets no reply, whatever it holds and whichever address it has")
    registers.says("An ASCII frame by radio counts as bad and gets no reply, whatever it holds")
    for n in range(259):
        is_good = least <= n + 2 <= most
        equal(replies_to(desk, *sized(n)), (REFUSED[0] if is_good else "0", ""), f"the replies to {n} bytes in both framings")
        equal(desk.read(4, 3), [1, 1, 1] if is_good else [0, 2, 0], f"the counters after {n} bytes in both framings")
    for address in (0, 1, 2, 255):
        mode_on = [address, 6, 0, 0x69, 0xE0, 0]
        equal(replies_to(desk, sealed([*mode_on, *[0] * (most + 1 - 8)]), spelled(mode_on)), ("0", ""), f"the replies at address {address}")
        equal(desk.read(4, 3) + desk.read(105), [0, 2, 0, 0], f"the counters and sensor 1's mode after the frames of address {address}")
    desk.fresh()
    registers.says("At address 0 a read counts as good, whatever its count, and nothing else happens")
    for count in range(131):
        equal(desk.ask(f"frame 0 {hexadecimal(sealed([0, 3, 0, 100, 0, count]), 2)}"), ["0"], f"a read of {count} registers at address 0")
    equal(desk.read(4, 3), [131, 0, 0], "the counters after reads at address 0")


def radio_sizes(desk, registers, _):
    """The longest reply and the longest accepted write, by the layouts; they pass where the frames of a port do."""
    rows = {row[0]: row for row in layout_rows(registers)}
    most, = map(int, registers.says(r"No reply by radio is longer than (\d+) bytes"))
    count, size = map(int, registers.says(r"the longest, of (\d+) registers, would have (\d+)"))
    equal((size_of(rows["3"][5], count), size <= most < size_of(rows["3"][5], count + 1)), (size, True), "the longest reply")
    widest = max(len(field[0]) for field in fields(registers))
    longest, = map(int, registers.says(r"Every write that the sonde accepts has at most (\d+) bytes"))
    equal(max(size_of(rows[function][2], widest) for function in ("6", "16", "22")), longest, "the longest write")


def radio_parts(desk, registers, _):
    """The parts in which a sensor is read are the runs of the registers that exist; each passes by radio and shows what serial shows."""
    runs = []
    for register in sorted(register for field in fields(registers) for register in field[0]):
        if runs and register == runs[-1][-1] + 1:
            runs[-1].append(register)
        else:
            runs.append([register])
    rows = registers.table("What", "Reads")
    equal([what for what, _ in rows], ["device", *(f"sensor {sensor}" for sensor in SENSORS)], "the rows of parts")
    parts = [[numbers(part) for part in reads.split(", ")] for _, reads in rows]
    equal([part for row in parts for part in row], runs, "the parts")
    equal([{part[0] // 100 for part in row} for row in parts], [{0}, *({sensor} for sensor in SENSORS)], "the sensors of the parts")
    most, size = map(int, registers.says(r"No part has more than (\d+) registers, .* whole, in a reply of (\d+) bytes at most"))
    equal([most, size], [max(map(len, runs)), len(sealed([1, 3, 2 * most, *[0] * 2 * most]))], "the longest part and its reply")
    desk.fresh()
    for sensor in SENSORS:
        desk.measure(sensor, 7.0, 8.0)
    for part in runs:
        shown = {}
        for port in (RADIO, SERIAL):
            desk.by(port)
            shown[port] = desk.read(part[0], len(part))
            equal(len(shown[port]), len(part), f"the words of the registers {part[0]}..{part[-1]} on port {port}")
        if part[0] >= 100:  # the device's counters differ
            equal(shown[RADIO], shown[SERIAL], f"the registers {part[0]}..{part[-1]} on both ports")


def answer_to_read(answer):
    """The reply to a read by its words, or by its code."""
    if isinstance(answer, int):
        return sealed([1, 0x83, answer])
    return sealed([1, 3, 2 * len(answer), *(byte for word in answer for byte in two(word))])


def radio_dialogue(desk, registers, _):
    """What stands behind the requests by radio is what they ask for and what they are answered."""
    temperature, conductivity, resistivity = (
        [0, 0, int(id_), int(units.split()[0]), 7, 0, 0, number(bits)] for sensor, _, _, id_, units, bits in parameter_rows(registers) if sensor == "1"
    )
    answers = {  # the words, or a code
        "sensor 1, last and next calibration 0, mode off, method 0, 3 parameters": [1, 0, 0, 0, 0, 0, 0, 3],
        "cell offset 0, cell constant 1": words_of(0.0) + words_of(1.0),
        "x1, y1, x2 and y2 are 0": [0] * 8,
        "temperature, conductivity and resistivity, not measured yet": temperature + conductivity + resistivity,
        "conductivity alone": conductivity,
        "29, but 154 doesn't exist": 2,
        "30 are too many": 3,
        "bad": None,
        "7 good, 1 bad, 2 exceptions, capacity 3, 0 entries in use": [7, 1, 2, 3, 0],
    }
    dialogue = [(request, reply, said.partition(": ")) for _, request, reply, said in registers.dialogue(ANY, (">>", "<<"))]
    equal([what for *_, (_, _, what) in dialogue], list(answers), "what is said of the requests")
    for request, reply, (where, _, what) in dialogue:
        answer = answers[what]
        if answer is None:
            equal((where, request + "\r\n", reply), ("in ASCII", spelled(bytes.fromhex(request[1:-2])), ""), what)
            continue
        named = numbers(where.removeprefix("registers "))
        equal(bytes.fromhex(request), bytes(sealed([1, 3, *two(named[0]), *two(len(named))])), where)
        equal(bytes.fromhex(reply), bytes(answer_to_read(answer)), what)
        if isinstance(answer, int):
            equal(int(re.match(r"\d+", what).group()), len(named), what)
    desk.fresh()
    equal((len(desk.read(153)), desk.read(154)), (1, 2), "registers 153 and 154")


def either_port(desk, registers, archive):
    """The RTU dialogue by radio gets the same replies, and leaves the archive's volume; so does one whose frames take turns."""
    registers.says("by radio the same frames get the same replies and leave the same journal")
    registers.says("it may begin on one port and be updated on the other, and its entry doesn't tell which")
    for ports in ((RADIO, RADIO), (RADIO, SERIAL), (SERIAL, RADIO)):
        desk.fresh()
        for n, (clock, request, reply, _) in enumerate(registers.dialogue(RTU)):
            desk.by(ports[n % 2])
            body, answer = (list(bytes.fromhex(text)[:-2]) for text in (request, reply))
            equal(desk.frame(*body, clock=clock), answer, f"the reply to {request} on port {ports[n % 2]}")
        equal(desk.words(), archive.worked(), f"the volume after frames on the ports {ports}")


def one_sonde(desk, registers, _):
    """What is written on one port is read on the other, and the counters of both are one set."""
    registers.says("there is one set for both framings and both ports")
    registers.says("a value that is written on one is read on the other, a sensor that is in mode is so on both")
    registers.says("registers 4 to 6 count the frames of both, whichever port reads them")
    for one, other in ((SERIAL, RADIO), (RADIO, SERIAL)):
        desk.fresh()
        desk.by(one)
        assert desk.write(205, 0xE000) == 0 and desk.write(212, *words_of(1.125)) == 0 and desk.write(9, 7) == 0 and desk.write(8, 7) == 0xC2
        desk.ask("frame 0 00")  # a bad frame
        desk.by(other)
        equal(desk.read(205) + desk.read(212, 2) + desk.read(9), [1, *words_of(1.125), 7], f"what was written on port {one}")
        desk.ask("frame 0 00")
        for n, port in enumerate((other, one)):
            desk.by(port)
            equal(desk.read(4, 3), [7 + n, 2, 1], f"the counters on port {port}")


def restart(desk, registers, _):
    """Everything is changed, then the sonde is powered up: what differs from a fresh one's is what the manual says is kept."""
    kept, lost = (row[1].split(", ") for row in registers.table("At a restart", "What"))
    places = {
        "coefficients in force": [100 * s + n for s in SENSORS for n in range(10, 16 if s == 3 else 14)],
        "last calibration": [100 * s + n for s in SENSORS for n in (1, 2)],
        "capacity": [7],
        "entries in use": [8],
        "mode": [100 * s + 5 for s in SENSORS],
        "trial coefficients": [],
        "method": [106, 206, 406],
        "points": [s + n for s in (100, 200, 400) for n in range(16, 24)],
        "next calibration": [100 * s + n for s in SENSORS for n in (3, 4)],
        "units": [133, 333],
        "level id": [340],
        "sentinels": [at + n for at in PARAMETERS for n in (5, 6)],
        "technician's number": [9],
        "counters": [4, 5, 6],
        "measurements": [at + n for at in PARAMETERS for n in (0, 1, 4)],
    }
    equal(sorted(places), sorted(kept + lost), "what is kept or lost")
    every = sorted(register for field in fields(registers) for register in field[0])

    def all_registers():
        return dict(zip(every, (word for register in every for word in desk.read(register))))

    desk.fresh(64 + 24 * 9)
    fresh = all_registers()
    for sensor in SENSORS:
        at = 100 * sensor
        equal(desk.calibrate(sensor, [0.125, 1.125, 2.5] if sensor == 3 else [0.125, 1.125], clock=0x01020304), 0, "a calibration")
        desk.measure(sensor, 7.0, 8.0)
        if sensor != 3:
            assert desk.write(at + 6, 2) == 0 and not any(desk.write(at + n, 0x3F81, 1) for n in (16, 18, 20, 22))
        assert desk.write(at + 3, 0x1111, 0x2222) == 0 and desk.write(at + 10, 0x3D81, 0x0001) == 0
    assert not any(desk.write(at, word) for at, word in ((133, 2), (333, 22), (340, 5)))
    assert not any(desk.write(at + 5, 0x4111, 0x2222) for at in PARAMETERS)
    desk.ask("frame 0 00")  # a bad frame
    assert desk.read(10) == 2 and desk.write(9, 7) == 0
    before = all_registers()
    changed = {register for register in every if before[register] != fresh[register]}
    for name in ("mode", "method", "points", "next calibration", "units", "level id", "sentinels", "technician's number", "counters", "last calibration", "entries in use"):
        assert changed >= set(places[name]), f"{name} was not changed"
    assert desk.call("power-up 1") == 0
    equal(desk.read(4, 3), [0, 0, 0], "counters")
    after = all_registers()
    differ = {register for register in every if after[register] != fresh[register]} - {2, 3, 4}
    stays = {register for name in kept for register in places[name]}
    assert differ <= stays, f"kept, but not said to be: {sorted(differ - stays)}"
    in_force = {100 * s + 10: words_of(0.125) for s in SENSORS} | {100 * s + 12: words_of(1.125) for s in SENSORS} | {314: words_of(2.5)}
    equal({at: [after[at], after[at + 1]] for at in in_force}, in_force, "coefficients in force")
    equal([after[100 * s + n] for s in SENSORS for n in (1, 2)], [0x0102, 0x0304] * 4, "last calibrations")
    equal((after[7], after[8]), (9, 4), "capacity and entries in use")
    equal({after[at + 4] for at in PARAMETERS}, {7}, "qualities")
    assert desk.write(205, 0xE000) == 0
    equal(desk.read(210, 4), words_of(0.125) + words_of(1.125), "trial coefficients")


# ---- docs/ARCHIVE.md


def float_cells(cell):
    return [[int(word, 16) for word in pair.split()] for pair in re.findall(r"`([0-9A-F]{4} [0-9A-F]{4})`", cell)]


def no_word_of_refused(desk, _, archive):
    """A volume before and after updates that are refused by each code, one of them with coefficients that can be read."""
    archive.says("One that was refused leaves no word in it, also where its coefficients could be read on the wire")
    desk.fresh(88)
    before = desk.words()
    equal(desk.write(205, 0xE001), 0x92, "mode off")
    for points, shown in ((8.0, 10.0), 1.25), ((0.0, 10.0), 1.25):
        equal(desk.calibrate(2, [], 1, [words_of(value) for value in points]), 0x97, f"the point {points}")
        equal(desk.read(212, 2), words_of(shown), f"the slope after the point {points}")
    equal(desk.words(), before, "the volume without an entry")
    equal(desk.calibrate(1), 0, "an update into the last entry")
    before = desk.words()
    equal(desk.calibrate(1), 0xC0, "a full journal")
    equal(desk.calibrate(4, [0.0, 9.0]), 0x97, "outside the limits, a full journal")
    equal(desk.words(), before, "the volume with an entry")


def rounding(desk, _, archive):
    """The calibrations by which a decoder can be tested; each tells the stated arithmetic from another."""
    archive.says("to nearest, ties to even. Subnormals .* are kept and not flushed to zero")
    archive.says("there is no fused multiply-add")
    rows = archive.table("x1, y1, x2, y2", "Coefficients 1, 2")
    assert rows
    for points, coefficients, otherwise in rows:
        desk.fresh()
        equal(desk.calibrate(4, [], 2, float_cells(points)), 0, f"the points {points}")
        equal([desk.read(410, 2), desk.read(412, 2)], float_cells(coefficients), f"the coefficients of {points}")
        x1, y1, slope = (Fraction(float_of(words)) for words in (*float_cells(points)[:2], float_cells(coefficients)[1]))
        least = Fraction(2) ** -149
        other = y1 - slope * x1 if "fused" in otherwise else y1 - floor(slope * x1 / least + Fraction(1, 2)) * least
        equal(float_cells(otherwise), [words_of(float(other))], f"coefficient 1 of {points} otherwise")


def names(desk, registers, archive):
    """Raw values, readings and coefficients have the units that the registers have by default."""
    default = {
        (row[0], row[1]): re.match(r"\d+ (\S+?)(,|$)", row[4]).group(1) for row in registers.table("Sensor", "k", "Parameter")
    }
    places = {"1": ("2", "2"), "2": ("1", "1"), "3": ("1", "2"), "4": ("1", "1")}
    for name, raw, reading, *cells in archive.table("Sensor", "Raw value", "Reading"):
        sensor = name[0]
        first, last = (default[sensor, k] for k in places[sensor])
        equal((raw, reading), (first, last), f"sensor {sensor}, units of raw value and reading")
        units = [re.fullmatch(r"(?:\+0|[a-z ]+(?:, (\S+))? \(.*\))", cell).group(1) for cell in cells]
        equal(units, [first, last, first] if sensor == "3" else [first, None, None], f"sensor {sensor}, units of its coefficients")


def sizes(desk, _, archive):
    header, least = map(int, archive.says(r"An odd number of bytes, fewer than (\d+) words \(no header\) and fewer than (\d+) words"))
    most, capacity = map(int, archive.says(r"Words beyond the first (\d+) are never used: the capacity stops at (\d+)"))
    archive.says("a volume has no serial number and no address")
    desk.fresh(least)
    whole = desk.words()
    equal(desk.call("power-up 9"), 0, "power-up of the least volume, by another address")
    for words in (whole[:-1], whole[:header], whole[: header - 1], whole[:1]):
        desk.load(words)
        equal(desk.call("power-up 1"), 4, f"power-up of {len(words)} words")
    equal(desk.call(f"begin {least - 1}"), 2, "begin of one word less")
    for length in (most - 1, most, most + 24):
        desk.fresh(length)
        equal(desk.words()[1], capacity - (length < most), f"the capacity of {length} words")
    desk.fresh(most + 24)
    words = desk.words()
    desk.load(words[:most])
    equal(desk.call("power-up 1"), 0, "power-up without the words beyond")


def no_coefficients(desk, _, archive):
    """Entries whose points give nothing: entry 2 of the worked volume by one point, entry 1 by two."""
    archive.says(r"Points with x1 = 0 \(method 1, either zero\) or x1 = x2 \(method 2\), or with a result that isn't finite, give no coefficients")
    for changes in ({100: 0}, {100: 0x8000}, {76: 0, 77: 0}, {76: 0, 77: 1, 78: 0x7F7F, 79: 0xFFFF}, {102: 0x7F7F, 100: 0x0080}):
        words = archive.worked()
        desk.load(words)
        assert desk.call("power-up 1") == 0
        for at, word in changes.items():
            words[at] = word
        desk.load(words)
        equal(desk.call("power-up 1"), 4, f"the number for {changes}")


def third(desk, _, archive):
    archive.says(r"Coefficient 3 is \+0 by both")
    for sensor in (1, 2, 4):
        for method in (1, 2):
            desk.fresh()
            equal(desk.calibrate(sensor, [], method, [words_of(value) for value in (8.0, 9.0, 0.0, 0.0)]), 0, "a calibration")
            entry = desk.words()[64:88]
            equal(entry[1:3] + entry[10:12], [sensor, method, 0, 0], "sensor, method and coefficient 3")


def technicians(desk, _, archive):
    """Word 3 of each entry of the worked volume is what the manual says, and may be anything; replay doesn't ask for it."""
    archive.says("words 20..23 are 0, while word 3 may be anything")
    archive.says("word 3 is 0; nothing else tells them from entries whose technician gave no number")
    archive.says("A number has no part in replay")
    worked = archive.worked()
    said = re.findall(r"^\| (\d+) \| ([0-9A-F]{4}) \| technician (\d+) \|$", archive.text, re.M)
    equal([(int(at), int(word, 16), int(name)) for at, word, name in said], [(at, worked[at], worked[at]) for at in (67, 91, 115)], "the technicians of the worked volume")
    places = [100 * s + n for s in SENSORS for n in (1, 2, 10, 11, 12, 13)]
    desk.load(worked)
    assert desk.call("power-up 1") == 0
    replayed = [desk.read(at) for at in places]
    for number in (0, 1, 0xFFFF):
        for at in (67, 91, 115):
            worked[at] = number
        desk.load(worked)
        equal(desk.call("power-up 1"), 0, f"power-up with the technicians {number}")
        equal([desk.read(at) for at in places], replayed, f"replay with the technicians {number}")


def flips(desk, _, archive):
    """Every bit of the worked volume is flipped, one at a time. Unseen is a flip after which power-up takes the volume."""
    worked = archive.worked()
    kind = {word: "all others" for word in range(len(worked))}

    def named(name, *words):
        kind.update({word: name for word in words})

    entries = [64 + 24 * n for n in range(3)]
    named("opening coefficients, 16..39", *range(16, 40))
    named("opening times, 40..47", *range(40, 48))
    for n, entry in enumerate(entries, 1):
        named("technicians of the entries", entry + 3)
        named("times of the entries", entry + 4, entry + 5)
        given = "coefficients of entry 3, written directly" if n == 3 else "coefficients of entries 1 and 2, which their points give"
        named(given, *range(entry + 6, entry + 12))
        named("points of the entries", *range(entry + 12, entry + 20))
    desk.load(worked)
    equal(desk.call("power-up 1"), 0, "power-up of the worked volume")
    counts = {}
    for word in range(len(worked)):
        for bit in range(16):
            desk.load(worked[:word] + [worked[word] ^ 1 << bit] + worked[word + 1 :])
            unseen = desk.call("power-up 1") == 0
            for name in (kind[word], "together"):
                flipped, passed = counts.get(name, (0, 0))
                counts[name] = (flipped + 1, passed + unseen)
    for name in sorted(counts):
        print(f"       {name}: {counts[name][0]} flips, {counts[name][1]} unseen")
    equal(counts, {row[0]: (int(row[1]), int(row[2])) for row in archive.table("Words", "Flips", "Unseen")}, "flips and unseen flips")
    unseen, flipped = archive.says(r"So (\d+) of (\d+), more than one in four, go unseen")
    equal(counts["together"], (int(flipped), int(unseen)), "the sum of the flips")
    assert 4 * int(unseen) > int(flipped)
    archive.says("in free words every one does, without harm")
    desk.fresh(88)
    begun = desk.words()
    for word in range(64, 88):
        for bit in range(16):
            desk.load(begun[:word] + [begun[word] ^ 1 << bit] + begun[word + 1 :])
            equal(desk.call("power-up 1"), 0, f"power-up after a flip in the free word {word}")


def either_framing(desk, registers, archive):
    """The RTU dialogue of the register manual, sent in ASCII, leaves the worked volume too."""
    archive.says("A calibration leaves the same words whether its frames came in Modbus RTU or in Modbus ASCII")
    desk.fresh()
    for clock, request, reply, _ in registers.dialogue(RTU):
        body, answer = (bytes.fromhex(text)[:-2] for text in (request, reply))
        equal(desk.characters(spelled(body), clock), spelled(answer), f"the reply to {request} in ASCII")
    equal(desk.words(), archive.worked(), "the volume")


def row_of_volumes(desk, _, archive):
    """The opening of a volume that follows another is what replay of the other gives, at the words that the manual names."""
    a, b, c, d, e, f, g, h = map(int, archive.says(r"words (\d+) \+ (\d+) × s to (\d+) \+ (\d+) × s and (\d+) \+ (\d+) × s to (\d+) \+ (\d+) × s"))
    worked = archive.worked()
    desk.load(worked)
    assert desk.call("power-up 1") == 0 and desk.call("begin 136") == 0
    new = desk.words()
    equal(new[:16], [1, 3] + [0] * 14, "the new volume's first words")
    for sensor in SENSORS:
        state, entry = worked[10 + 6 * sensor :][:6] + worked[38 + 2 * sensor :][:2], worked[3 + sensor]
        while entry:
            at = 64 + 24 * (entry - 1)
            state, entry = worked[at + 6 : at + 12] + worked[at + 4 : at + 6], worked[at]
        equal(new[a + b * sensor : c + d * sensor + 1] + new[e + f * sensor : g + h * sensor + 1], state, f"the opening of sensor {sensor}")


def relinked(words):
    """Steps 3 and 4 of a salvage by hand; None where step 2 finds entries that aren't there, or no sensor."""
    words, used = list(words), words[2]
    entries = [64 + 24 * i for i in range(used)]
    if used > words[1] or any(words[entry + 1] not in SENSORS for entry in entries):
        return None
    for at in (*range(4, 12), *entries):
        words[at] = 0
    for i, entry in enumerate(entries, 1):
        sensor = words[entry + 1]
        link = 3 + sensor if words[3 + sensor] == 0 else entries[words[7 + sensor] - 1]
        words[link] = words[7 + sensor] = i
    return words


def salvaged(desk, words):
    """What the library's salvage makes of words: a number, how many words changed, and the words, held to the steps by hand."""
    by_hand = relinked(words)
    desk.load(by_hand or words)
    mends = by_hand is not None and desk.call("power-up 1") == 0
    desk.load(words)
    number, changed = map(int, desk.ask("salvage")[0].split())
    after = desk.words()
    equal(number, 0 if mends else 8, "the number of a salvage")
    equal(after, by_hand if mends else words, "the words after a salvage")
    equal(changed, sum(a != b for a, b in zip(words, after)), "the words that a salvage changed")
    return number, changed, after


def two_entries(archive):
    """The worked volume before its entry 3 was appended; the free words are A5A5."""
    words = archive.worked()[:112] + [0xA5A5] * 24
    words[2], words[9], words[64] = 2, 1, 0
    return words


def after_a_cut(desk, _, archive):
    """The worked volume, cut at each store while its entry 3 was appended; salvage by the library and by hand."""
    archive.says(r"1\.\.24 \| 64 \+ 24 × n, .* 25 \| word 0 of the sensor's last entry, or word 3 \+ s .* 26 \| 7 \+ s .* 27 \| 2 \|")
    archive.says("Write 0 to words 4..11 and to word 0 of the entries 1 to n")
    archive.says(r"if word 3 \+ s is 0, write i there; else write i to word 0 of the entry that word 7 \+ s names. Then write i to word 7 \+ s")
    worked, old = archive.worked(), two_entries(archive)
    rows = archive.table("Stores", "Word 2", "Word 9", "Word 64", "Whole", "Words that salvage changes")
    equal([stores for row in rows for stores in numbers(row[0])], list(range(28)), "the stores of an append")
    before = old
    for stores, *words, whole, changed in ((n, *row[1:]) for row in rows for n in numbers(row[0])):
        found = appended(desk, old, worked[112:], stores)
        place = [*range(112, 136), 64, 9, 2][:stores][-1:]
        equal([at for at in range(136) if found[at] != before[at]], place, f"the word of store {stores}")
        equal(hexadecimal((found[at] for at in (2, 9, 64)), 4).split(), words, f"the words after {stores} stores")
        desk.load(found)
        equal(desk.call("power-up 1"), 0 if whole == "yes" else 4, f"power-up after {stores} stores")
        number, count, after = salvaged(desk, found)
        equal((number, count), (0, int(changed)), f"the salvage after {stores} stores")
        equal(after[: 64 + 24 * after[2]], worked if stores == 27 else old[:112], f"the volume after {stores} stores and a salvage")
        before = found


def salvage_by_hand(desk, _, archive):
    """The example after 26 stores, word by word; and the first entry of each sensor's chain."""
    archive.says("After 26 stores every word is as printed above but word 2")
    text, = archive.says(r"Words 4\.\.11 are then `([0-9A-F ]+)`, words 64 and 88 are 0, and two words differ from those found: 9 \(0003 before, now 0001\) and 64 \(0003 before, now 0000\)")
    worked = archive.worked()
    found = worked[:2] + [2] + worked[3:]
    equal(found, appended(desk, two_entries(archive), worked[112:], 26), "the words after 26 stores")
    after = salvaged(desk, found)[2]
    equal([int(word, 16) for word in text.split()], after[4:12], "words 4..11")
    equal({at: (found[at], after[at]) for at in range(136) if found[at] != after[at]}, {9: (3, 1), 64: (3, 0)}, "the words that differ")
    for sensor in SENSORS:
        desk.fresh(88)
        begun, entry = desk.words(), [0, sensor, 0, 7, 0, 1000, 0, 0, 0x3F80, *[0] * 15]
        equal(appended(desk, begun, entry, 26)[4:12], [int(at in (3 + sensor, 7 + sensor)) for at in range(4, 12)], "the first and the last word")
        equal([salvaged(desk, appended(desk, begun, entry, stores))[1] for stores in range(28)], [0] * 25 + [1, 2, 0], "the words that change")


def appended(desk, words, entry, stores):
    desk.load(words)
    assert desk.call(f"append {stores} {hexadecimal(entry, 4)}") == 0
    return desk.words()


def salvaged_flips(desk, _, archive):
    """Every bit of the worked volume is flipped, one at a time, and salvaged."""
    said = archive.says(
        r"Of the (\d+) flips of the worked volume it leaves the (\d+) unseen ones as they are, undoes all (\d+) in chain words and refuses (\d+) by number 8\. The (\d+) others"
    )
    others = archive.says(r"bit (\d) of word (\d+) \(the very words of .*?\), bit (\d) of word (\d+) \(.*?; (\d) words change\) and bit (\d) of word (\d+) \(.*?; (\d) words change\)")
    worked = archive.worked()
    left, undone, beyond, made = 0, [], 0, []
    for word in range(len(worked)):
        for bit in range(16):
            found = worked[:word] + [worked[word] ^ 1 << bit] + worked[word + 1 :]
            number, changed, after = salvaged(desk, found)
            left += number == 0 and changed == 0
            beyond += number == 8
            if number == 0 and changed > 0:
                (undone if after == worked else made).append((bit, word, changed))
    equal([16 * len(worked), left, len(undone), beyond, len(made)], [int(count) for count in said], "the flips, and those left, undone, refused and others")
    equal({word for _, word, _ in undone}, {*range(4, 12), 64, 88, 112}, "the words of the flips that are undone")
    equal([number for flip in made for number in flip], [*map(int, others[:2]), 2, *map(int, others[2:])], "the other flips, and the words that change")


def page_columns(_, __, archive):
    """The columns of the page, by which the printed lines are read as the worked volume has them."""
    places = {}
    for characters, what in archive.table("Characters", "What they show"):
        first, last = numbers(characters)[0], numbers(characters)[-1]
        places[re.match(r"coefficient \d|\w+", what).group()] = slice(first - 1, last)
    width, = map(int, archive.says(r"Every line has (\d+) characters and ends with LF"))
    lines = re.search(r"^```text page\n(.*?)^```$", archive.text, re.M | re.S)[1].splitlines()
    worked, wanted = archive.worked(), []
    for sensor in SENSORS:
        wanted.append(["0", str(sensor), "-", "0", worked[38 + 2 * sensor :][:2], worked[10 + 6 * sensor :][:6]])
    for index in range(1, worked[2] + 1):
        entry = worked[64 + 24 * (index - 1) :]
        wanted.append([str(index), str(entry[1]), str(entry[2]), str(entry[3]), entry[4:6], entry[6:12]])
    equal(list(places), ["index", "sensor", "method", "technician", "time", "coefficient 1", "coefficient 2", "coefficient 3"], "the columns")
    equal(len(lines), len(wanted), "the lines of the page")
    for line, (*plain, time, coefficients) in zip(lines, wanted):
        equal(len(line), width, f"the characters of {line}")
        cells = [line[place] for place in places.values()]
        digits = hexadecimal(coefficients, 4).split()
        shown = [*plain, str(time[0] << 16 | time[1]), *("".join(pair) for pair in zip(digits[::2], digits[1::2]))]
        equal(cells, [text.rjust(len(cell)) for text, cell in zip(shown, cells)], f"the columns of {line}")
        equal(" ".join(cells), line, "the line of its columns, with one blank between two")


ON_EITHER_PORT = (
    *(order, broadcast, past_the_end, existing, access, parameters, limits, readings, in_mode, calibration, refused_by_limits),
    *(who_calibrates, after_a_refusal, restart),
)
CHECKS = (
    (
        *("REGISTERS.md", SERIAL),
        (
            *(checksum, layouts, ascii_checksum, lengths, bad_ascii, digits, ascii_exchange, said, *ON_EITHER_PORT),
            *(counts, radio_sizes, either_port, one_sonde),
        ),
    ),
    ("REGISTERS.md by radio", RADIO, (radio_frames, radio_parts, radio_dialogue, *ON_EITHER_PORT)),
    (
        *("ARCHIVE.md", SERIAL),
        (
            *(no_word_of_refused, rounding, names, sizes, no_coefficients, third, technicians, flips, either_framing, row_of_volumes),
            *(after_a_cut, salvage_by_hand, salvaged_flips, page_columns),
        ),
    ),
)


def main(desk, registers, archive):
    desk, registers, archive = Desk(desk), Manual(registers), Manual(archive)
    failed = False
    for document, port, checks in CHECKS:
        for check in checks:
            desk.by(port)
            try:
                check(desk, registers, archive)
                print(f"ok     {document}: {check.__name__.replace('_', ' ')}")
            except (AssertionError, ValueError, LookupError, AttributeError, TypeError, struct.error) as error:
                print(f"FAILED {document}: {check.__name__.replace('_', ' ')}: {error}")
                failed = True
    return failed


sys.exit(main(*sys.argv[1:]))
