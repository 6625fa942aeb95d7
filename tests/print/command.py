"""command.py TOP FOLDER: the command ./print of a repository that is built: what it prints, what it refuses and why, its words and its exit statuses."""

import os
import re
import shutil
import subprocess
import sys
from pathlib import Path

import checks
from checks import UNSOUND, check, equal, ran
from samples import thirty
from unsound import RULES, all_unsound, base, with_words
from volumes import MOST, Volume, page, to_bytes

TOP, FOLDER = Path(sys.argv[1]).resolve(), Path(sys.argv[2]).resolve()
PRINT, HOST, PROGRAM = str(TOP / "print"), str(TOP / "target/cargo/release/print"), str(TOP / "target/bin/printer")
WORDS = thirty().words()
DATA, PAGE = to_bytes(WORDS), page(WORDS)


def printing(*words, given=b"", **more):
    return ran([PRINT, *words], given, cwd=FOLDER, **more)


def file(name, data):
    path = FOLDER / name
    path.write_bytes(data)
    return name


def pages():
    """A file and standard input give what the program gives, and nothing else is written anywhere."""
    equal(ran([PROGRAM], DATA), (0, PAGE, b""), "the program itself")
    file("volume", DATA)
    for name in ("with blank", "a&b<c>.volume", "-x", "--svg", "new\nline", "ä"):
        file(name, DATA)
    before = sorted(os.listdir(FOLDER))
    for words in (["volume"], [str(FOLDER / "volume")], ["./-x"], ["--", "-x"], ["--", "--svg"], ["with blank"], ["a&b<c>.volume"], ["new\nline"], ["ä"]):
        equal(printing(*words), (0, PAGE, b""), f"./print {words}")
    for words in ([], ["-"], ["--", "-"], ["--"]):
        equal(printing(*words, given=DATA), (0, PAGE, b""), f"./print {words} of standard input")
    with subprocess.Popen(["cat", "volume"], cwd=FOLDER, stdout=subprocess.PIPE) as pipe:
        done = subprocess.run([PRINT], stdin=pipe.stdout, capture_output=True)
    equal((done.returncode, done.stdout, done.stderr), (0, PAGE, b""), "cat volume | ./print")
    status, picture, said = printing("--svg", "volume")
    check((status, said) == (0, b"") and picture.startswith(b"<?xml"), "./print --svg")
    for words in (["volume", "--svg"], ["--svg", "--svg", "volume"]):
        equal(printing(*words), (0, picture, b""), f"./print {words}")
    equal((FOLDER / "volume").read_bytes(), DATA, "the volume afterwards")
    equal(sorted(os.listdir(FOLDER)), before, "the files of the folder afterwards")


def refused(name, data, reason):
    """UNSOUND and the reason; with --svg the reason alone."""
    file(name, data)
    for words, given, what in (([name], b"", name), ([], data, "standard input")):
        said = f"print: {what} is refused: {reason}\n".encode()
        equal(printing(*words, given=given), (1, UNSOUND, said), f"./print of {name}, {words}")
        equal(printing("--svg", *words, given=given), (1, b"", said), f"./print --svg of {name}, {words}")


def refusals():
    refused("empty", b"", "it is empty")
    for count in (1, 3, 175):
        refused(f"{count} bytes", DATA[:count], f"it has {count} bytes, which are no whole words")
    refused("2 bytes", DATA[:2], "the volume has 1 words, and has to have at least 88")
    refused("174 bytes", DATA[:174], "the volume has 87 words, and has to have at least 88")
    full = to_bytes(Volume(MOST).words())
    long = "it has more than 48128 bytes, the most that is printed; no journal uses the bytes beyond, and `head -c 48128` cuts them off"
    refused("48129 bytes", full + b"\0", long)
    refused("48130 bytes", full + b"\0\0", long)
    refused("a mebibyte", full + bytes(1 << 20), long)
    equal(printing(given=(full + b"\0\0")[:48128]), (0, page(Volume(MOST).words()), b""), "what is left when the rest is cut off")
    words = base().words()
    refused("format", to_bytes(with_words(words, {0: 2})), "word 0, format: it is 2, and has to be 1")
    refused("sensor", to_bytes(with_words(words, {65: 5})), "word 65, sensor of entry 1: it is 5, and has to be 1 to 4")
    swapped = bytes(byte for pair in zip(DATA[1::2], DATA[::2]) for byte in pair)
    refused("swapped", swapped, "word 0, format: it is 256 (0x0100), and has to be 1; the file has each word's low byte first: `dd conv=swab` swaps the bytes")


def reasons():
    """Each volume that breaks a rule has a fault that can be named."""
    rules = set()
    for rule, what, words in all_unsound():
        rules.add(rule)
        status, out, said = ran([HOST, PROGRAM, "page", "it"], to_bytes(words))
        named = re.fullmatch(rb"print: it is refused: (words? \d+|the volume has \d+ words).*\n", said)
        check((status, out) == (1, UNSOUND) and named, f"{rule}: {what}: exit status {status}, {said}")
    equal(rules, {rule.__name__ for rule in RULES}, "the rules that were broken")


def unreadable():
    (FOLDER / "nowhere").symlink_to("missing")
    (FOLDER / "folder").mkdir()
    for name, reason in (("missing", "there is no such file"), ("nowhere", "there is no such file"), ("", "there is no such file"), ("folder", "it is a folder")):
        equal(printing(name), (2, b"", f"print: {name}: {reason}\n".encode()), f"./print of {name}")
        equal(printing("--svg", name), (2, b"", f"print: {name}: {reason}\n".encode()), f"./print --svg of {name}")
    folder = os.open(FOLDER / "folder", os.O_RDONLY)
    done = subprocess.run([PRINT], stdin=folder, capture_output=True)
    os.close(folder)
    said = b"print: standard input can't be read: Is a directory (os error 21)\n"
    equal((done.returncode, done.stdout, done.stderr), (2, b"", said), "./print of a folder as standard input")
    path = FOLDER / file("closed", DATA)
    path.chmod(0)
    command = [PRINT, str(path)]
    if os.getuid() == 0:
        nobody = ["setpriv", "--reuid=65534", "--regid=65534", "--clear-groups"]
        FOLDER.chmod(0o755)
        if not shutil.which("setpriv") or ran([*nobody, "cat", PRINT, str(TOP / "hosts/build.sh"), str(FOLDER / "volume")])[0] != 0:
            print("SKIPPED: a file that may not be read, since there is no setpriv, or nobody can't read this folder")
            return
        command = [*nobody, *command]
    equal(ran(command), (2, b"", f"print: {path}: it may not be read\n".encode()), "./print of a file that may not be read")


def options():
    told = "; --help lists the options\n"
    for words, reason in (
        (["--bogus"], "there is no option --bogus"),
        (["-v"], "there is no option -v"),
        (["--svg=1"], "there is no option --svg=1"),
        (["--SVG", "volume"], "there is no option --SVG"),
        (["volume", "-n"], "there is no option -n"),
        (["--bogus", "--help"], "there is no option --bogus"),
        (["volume", "closed"], "one FILE at most is printed: volume and closed were given"),
        (["volume", "-"], "one FILE at most is printed: volume and - were given"),
        (["--", "volume", "--help"], "one FILE at most is printed: volume and --help were given"),
    ):
        equal(printing(*words, given=DATA), (2, b"", f"print: {reason}{told}".encode()), f"./print {words}")
    status, text, said = printing("--help")
    check((status, said) == (0, b"") and text.startswith(b"./print: "), "./print --help")
    for option in ("--svg", "--version", "--help", "--"):
        check(f"\n    {option} ".encode() in text, f"the help doesn't list {option}")
    for status in ("0 printed", "1 the volume is refused", "2 a wrong option"):
        check(status.encode() in text, f"the help doesn't say: {status}")
    equal(printing("-h"), (0, text, b""), "./print -h")
    equal(printing("volume", "--help"), (0, text, b""), "./print volume --help")
    version = re.search(r'#define SONDE_VERSION "(.*)"', (TOP / "include/sonde.h").read_text())[1]
    equal(printing("--version"), (0, f"print {version}\n".encode(), b""), "./print --version")


def output():
    """What can't be written is told; a reader who has seen enough isn't."""
    with open("/dev/full", "wb") as full:
        done = subprocess.run([PRINT, "volume"], cwd=FOLDER, stdout=full, stderr=subprocess.PIPE)
    said = b"print: standard output can't be written: No space left on device (os error 28)\n"
    equal((done.returncode, done.stderr), (1, said), "./print to a full disk")
    reading, writing = os.pipe()
    os.close(reading)
    done = subprocess.run([PRINT, "volume"], cwd=FOLDER, stdout=writing, stderr=subprocess.PIPE)
    os.close(writing)
    equal((done.returncode, done.stderr), (1, b""), "./print to nobody")


def stand_in(name, text):
    path = FOLDER / name
    path.write_text(f"#!/bin/sh\n{text}\n")
    path.chmod(0o755)
    return str(path)


def other_programs():
    """The host hands on what its program writes, and says where that is wrong."""
    liar = stand_in("liar", "cat >/dev/null; echo UNSOUND")
    said = b"print: it is refused: the printer refused it, and no fault is found here\n"
    equal(ran([HOST, liar, "page", "it"], DATA), (1, UNSOUND, said), "a program that refuses a sound volume")
    equal(ran([HOST, stand_in("other", "cat"), "page", "it"], DATA), (0, DATA, b""), "a program that writes anything")
    equal(ran([HOST, stand_in("hasty", "echo page"), "page", "it"], DATA * 20), (0, b"page\n", b""), "a program that reads nothing")
    for name, text in (("failing", "cat >/dev/null; echo UNSOUND; exit 3"), ("killed", "kill -9 $$")):
        status, out, said = ran([HOST, stand_in(name, text), "page", "it"], DATA)
        check((status, out) == (1, b"") and b" failed: " in said, f"a program that is {name}: {status}, {out}, {said}")
    status, out, said = ran([HOST, str(FOLDER / "missing"), "page", "it"], DATA)
    check((status, out) == (1, b"") and b" can't be run: " in said, f"no program: {status}, {out}, {said}")
    for text in ("cat >/dev/null; echo page", "cat >/dev/null"):
        status, out, said = ran([HOST, stand_in("wrong", text), "svg", "it"], DATA)
        check((status, out) == (1, b"") and b" page " in said, f"a picture of what is no page: {status}, {out}, {said}")
    later = PAGE.replace(b"   0 2 -", b"   0 1 3     0          0 41C80000 3CA3D70A 3F266666\n   0 2 -", 1)
    (FOLDER / "later").write_bytes(later)
    status, out, said = ran([HOST, stand_in("newer", f"cat >/dev/null; cat {FOLDER}/later"), "svg", "it"], DATA)
    check((status, said) == (0, b"") and b"1 line of methods that have no part in these coefficients: not drawn." in out, f"a line of another method: {said}")
    equal(ran([HOST], DATA)[:2], (2, b""), "the host without words")


for part in (pages, refusals, reasons, unreadable, options, output, other_programs):
    part()
checks.ended("./print")
