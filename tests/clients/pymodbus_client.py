"""pymodbus rtu|ascii before|after DEVICE: one line for each step, exit status 1 where one went wrong.
pymodbus rtu|ascii rounds DEVICE SENSOR COUNT serial|radio: so many calibrations of sensor 1 or 4 at clock 1767225600, a line with the words of the entry
for each, and a line with the number of requests.

pymodbus hands back an ExceptionResponse with the code, whatever it is. Its text names codes 1 to 11 (IllegalAddress), and says None for any other,
such as 0x92.
"""

import struct
import sys

from pymodbus.client import ModbusSerialClient
from pymodbus.constants import Endian
from pymodbus.payload import BinaryPayloadBuilder, BinaryPayloadDecoder
from pymodbus.pdu import ExceptionResponse
from pymodbus.transaction import ModbusAsciiFramer, ModbusRtuFramer

ADDRESS = 17
FRAMERS = {"rtu": ModbusRtuFramer, "ascii": ModbusAsciiFramer}


def f32(value):
    """Rounded once to binary32."""
    return struct.unpack(">f", struct.pack(">f", value))[0]


class Client:
    def __init__(self, framing, device):
        self.line = ModbusSerialClient(device, framer=FRAMERS[framing], baudrate=19200, parity="N", stopbits=2, timeout=5)
        self.asked = self.refusals = 0
        self.failed = not self.line.connect()

    def result(self, holds, what, got):
        print(f"ok     {what}" if holds else f"FAILED {what}, got: {got}")
        self.failed |= not holds

    def reads(self, start, expected, what):
        self.asked += 1
        got = self.line.read_holding_registers(start, len(expected), slave=ADDRESS)
        self.result(not got.isError() and got.registers == expected, f"{what}: {expected}", got)

    def reads_floats(self, start, expected, what):
        self.asked += 1
        got = self.line.read_holding_registers(start, 2 * len(expected), slave=ADDRESS)
        if not got.isError():
            decoder = BinaryPayloadDecoder.fromRegisters(got.registers, byteorder=Endian.Big, wordorder=Endian.Big)
            got = [decoder.decode_32bit_float() for _ in expected]
        self.result(got == [f32(value) for value in expected], f"{what}: {expected}", got)

    def writes(self, register, word, what):
        """Function 6."""
        self.asked += 1
        got = self.line.write_register(register, word, slave=ADDRESS)
        self.result(not got.isError() and (got.address, got.value) == (register, word), f"write {what}", got)

    def writes_words(self, start, words, what):
        """Function 16."""
        self.asked += 1
        got = self.line.write_registers(start, words, slave=ADDRESS)
        self.result(not got.isError() and (got.address, got.count) == (start, len(words)), f"write {what}", got)

    def writes_float(self, start, value, what):
        builder = BinaryPayloadBuilder(byteorder=Endian.Big, wordorder=Endian.Big)
        builder.add_32bit_float(value)
        self.writes_words(start, builder.to_registers(), what)

    def masks(self, register, and_mask, or_mask, what):
        """Function 22. In pymodbus 3.0 this call alone drops `slave` and sends to address 0; `unit` it takes."""
        self.asked += 1
        got = self.line.mask_write_register(address=register, and_mask=and_mask, or_mask=or_mask, unit=ADDRESS)
        holds = not got.isError() and (got.address, got.and_mask, got.or_mask) == (register, and_mask, or_mask)
        self.result(holds, f"mask write {what}", got)

    def refused(self, code, name, got, what):
        self.asked += 1
        self.refusals += 1
        holds = isinstance(got, ExceptionResponse) and got.exception_code == code and str(got).endswith(f", {name})")
        self.result(holds, f"code {code:#04x} ({name}), {what}", got)

    def refuses(self, code, register, word, what):
        self.refused(code, None, self.line.write_register(register, word, slave=ADDRESS), what)

    def parameter(self, start, value, identity, units, available, what):
        self.reads_floats(start, [value], what)
        self.reads(start + 2, [identity, units, 0], "id, units, quality")
        self.reads_floats(start + 5, [0.0], "sentinel")
        self.reads(start + 7, [available], "available units")

    def map(self):
        self.reads(0, [3, 1, 0x6955, 0xB900, 0, 0, 0, 3, 0, 0], "device")
        for sensor, parameters in ((1, 3), (2, 1), (4, 1)):
            start = 100 * sensor
            self.reads(start, [sensor, 0, 0, 0, 0, 0, 0, parameters], f"sensor {sensor}")
            self.reads_floats(start + 10, [0.0, 1.0], f"sensor {sensor}, coefficients")
            self.reads_floats(start + 16, [0.0] * 4, f"sensor {sensor}, points")
        self.reads(300, [3, 0, 0, 0, 0, 0], "sensor 3")
        self.reads(307, [2], "sensor 3, number of parameters")
        self.reads_floats(310, [0.0] * 3, "sensor 3, coefficients")
        self.parameter(130, 20.0, 1, 1, 0x0003, "temperature")
        self.parameter(138, 1000.0, 9, 65, 1, "conductivity")
        self.parameter(146, 1000.0, 11, 81, 1, "resistivity, 1000000 / 1000")
        self.parameter(230, 8.0, 20, 117, 0x0010, "oxygen")
        self.parameter(330, 14.7, 2, 17, 0x003D, "pressure")
        self.parameter(338, f32(14.7) * f32(0.70307), 3, 35, 0x0004, "level")
        self.parameter(430, 5.0, 51, 118, 0x0020, "chlorophyll")

    def writing(self):
        self.writes(133, 2, "units of the temperature: °F")
        self.reads(133, [2], "units of the temperature")
        self.reads_floats(130, [f32(20 * f32(1.8)) + 32], "temperature")
        self.writes_words(103, [0x6B49, 0xD200], "next calibration of sensor 1")
        self.reads(103, [0x6B49, 0xD200], "next calibration of sensor 1")
        self.writes_float(435, -999.5, "sentinel of the chlorophyll")
        self.reads_floats(435, [-999.5], "sentinel of the chlorophyll")
        self.masks(333, 0xFFFC, 0x0003, "of the pressure's units: (17 and 0xFFFC) or 3")
        self.reads(333, [19], "units of the pressure")
        self.reads_floats(330, [f32(14.7) * f32(6.894757)], "pressure in kPa")
        self.writes(9, 7, "technician 7")
        self.reads(9, [7], "technician")

    def refusing(self):
        self.refused(1, "IllegalFunction", self.line.read_input_registers(0, 1, slave=ADDRESS), "input registers")
        self.refused(2, "IllegalAddress", self.line.read_holding_registers(10, 1, slave=ADDRESS), "register 10")
        self.refused(2, "IllegalAddress", self.line.read_holding_registers(300, 8, slave=ADDRESS), "no method on sensor 3")
        self.refused(3, "IllegalValue", self.line.read_holding_registers(0, 126, slave=ADDRESS), "126 registers")
        self.refuses(0x80, 110, 0x3F80, "half of a float")
        self.refuses(0xC2, 0, 4, "the version of the map")
        self.refuses(0x92, 106, 1, "method with mode off")
        self.refuses(0x92, 105, 0xE001, "update with mode off")
        self.refuses(0x84, 133, 7, "units that are not listed")

    def calibration(self):
        self.writes(105, 0xE000, "mode on")
        self.reads(105, [1], "mode")
        self.reads(142, [6], "quality of the conductivity")
        self.writes(106, 1, "method: one point")
        self.refuses(0x97, 105, 0xE001, "update with x1 = 0")
        self.writes_float(116, 1000.0, "x1 = 1000")
        self.writes_float(118, 5000.0, "y1 = 5000")
        self.refuses(0x97, 105, 0xE001, "a constant outside the limits")
        self.reads_floats(110, [0.0, 5.0], "sensor 1, coefficients of the failed update")
        self.reads(8, [0], "entries in use")
        self.writes_float(118, 1250.0, "y1 = 1250")
        self.writes(105, 0xE001, "update")
        self.writes(105, 0xE002, "mode off")
        self.reads_floats(110, [0.0, 1.25], "sensor 1, coefficients")
        self.reads(101, [0x6955, 0xB900, 0, 0], "last and next calibration")
        self.reads_floats(138, [1250.0], "conductivity, 0 + (1.25 × 1000)")
        self.reads_floats(146, [800.0], "resistivity, 1000000 / 1250")
        self.reads(8, [1], "entries in use")

    def powered_up(self):
        self.reads(0, [3, 1, 0x6957, 0x0A80, 0, 0, 0, 3, 1, 0], "device")
        self.reads_floats(110, [0.0, 1.25], "sensor 1, coefficients")
        self.reads(101, [0x6955, 0xB900, 0, 0, 0, 0], "last and next calibration, mode, method")
        self.reads_floats(138, [1250.0], "conductivity")
        self.reads(133, [1], "units of the temperature")
        self.reads_floats(435, [0.0], "sentinel of the chlorophyll")

    def full(self):
        self.writes(205, 0xE000, "mode on, sensor 2")
        self.writes_float(212, 1.125, "slope 1.125")
        self.writes(205, 0xE001, "update")
        self.writes_float(210, -0.125, "offset -0.125")
        self.writes_words(9, [65535], "technician 65535")
        self.reads(9, [65535], "technician")
        self.masks(205, 0x0000, 0xE001, "of the command: an update")
        self.refuses(0xC0, 205, 0xE001, "the journal is full")
        self.writes(205, 0xE002, "mode off")
        self.reads_floats(210, [-0.125, 1.125], "sensor 2, coefficients")
        self.reads_floats(230, [8.875], "oxygen, -0.125 + (1.125 × 8)")
        self.reads(8, [3], "entries in use")


    def calibrates(self, sensor, k, refusal):
        """By the point (8 + k, y), whose slope is 1 to 31/16: every float is exact. Of its entry words 1 to 23 are printed."""
        base, slope = 100 * sensor, (16 + k % 16) / 16
        x1, y1 = 8 + k, (8 + k) * slope
        self.writes(base + 5, 0xE000, "mode on")
        self.writes(base + 6, 1, "method: one point")
        self.writes_float(base + 16, x1, "x1")
        self.writes_float(base + 18, y1, "y1")
        self.reads_floats(base + 16, [x1, y1], "the point")
        self.refused(*refusal, self.line.read_holding_registers(0, 30, slave=ADDRESS), "30 registers")
        self.writes(base + 5, 0xE001, "update")
        self.reads_floats(base + 10, [0.0, slope], "coefficients")
        self.writes(base + 5, 0xE002, "mode off")
        self.reads(base, [sensor, 0x6955, 0xB900, 0, 0, 0], "its number, last and next calibration, mode")
        entry = struct.pack(">3HI9f", sensor, 1, 0, 1767225600, 0, slope, 0, x1, y1, 0, 0, 0, 0)
        print("entry", entry.hex(" ", 2))

    def rounds(self, sensor, count, port):
        refusal = (3, "IllegalValue") if port == "radio" else (2, "IllegalAddress")
        for k in range(int(count)):
            self.calibrates(int(sensor), k, refusal)
        print("asked", self.asked)


def main(framing, phase, device, *words):
    client = Client(framing, device)
    if phase == "rounds":
        client.rounds(*words)
        return client.failed
    steps = {
        "before": (client.map, client.writing, client.refusing, client.calibration),
        "after": (client.powered_up, client.full),
    }
    for step in steps[phase]:
        step()
    client.reads(4, [client.asked, 0, client.refusals], "good, bad and refused frames")
    client.line.close()
    return client.failed


sys.exit(main(*sys.argv[1:]))
