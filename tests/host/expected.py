"""What the program is to print."""
import re
from datetime import datetime, timedelta

from cases import make_case
from program import ROOT

PLACES = {1: "found in the image", 2: "found in the pagefile", 3: "page of zeros, by the tables"}


def refusals():
    """Number and words of README's table."""
    table = (ROOT / "README.md").read_text().split("\n## Refusals\n")[1]
    return {int(number): words for number, words in re.findall(r"^\| (\d+) \| (.*) \|$", table, re.M)}


REFUSALS = refusals()
WORDS = {0: "done", **PLACES, **REFUSALS}

# The map of 18 pages from 0xB34000 on in the shipped case.
SHIPPED_MAP = bytes.fromhex("01b416121b010201011b0101010503011601010105170118011a011d011c0101010502010103021f02")


def place(address, number, offset=0, entries=None):
    """The line for a place or a refusal."""
    line = f"0x{address:016X}  {number:2} " + (PLACES[number] if number in PLACES else "refused: " + REFUSALS[number])
    line += f", offset 0x{offset:X}" if number in (1, 2) else ""
    if entries is not None:
        line += f", {entries} {'entry' if entries == 1 else 'entries'} read"
    return line


def fault(name, number, rest=""):
    """The line for a case or a map that is refused as a whole."""
    return f"{name:18}  {number:2} refused: {REFUSALS[number]}{rest}"


def at_byte(position, file):
    """Behind the line of a number at fault: the byte of its file at which it begins."""
    return f", at byte 0x{position:X} of the {file}"


def marked_row(content, position):
    """The line of a file's dump that holds a byte, and a mark below the byte's digits."""
    start = position - position % 16
    (row,) = dump(start, content[start : start + 16])
    places = [match.start() for match in re.finditer(r"(?<= )[0-9A-F]{2} ", row.split("|")[0])]
    return [row, " " * places[position - start] + "^^"]


def faulty_number(name, number, content, position):
    """The lines for a case or a map that is refused for a number of the sheet or map."""
    return [fault(name, number, at_byte(position, "sheet" if name == "case" else name)), *marked_row(content, position)]


def block(offset, self_address, directory_page, entries):
    """The line for a processor block."""
    words = f"Self 0x{self_address:016X}, directory page 0x{directory_page:09X}, CR3 0x{directory_page << 12:016X}"
    return f"0x{offset:016X}   1 {PLACES[1]}, {words}, {entries} entries read"


def no_block(start):
    """The line for a search that finds no processor block."""
    return fault("image", 55, f", from 0x{start:X}")


def stretch(address, number, offset, length):
    """The line for a stretch of a read."""
    return f"{place(address, number, offset)}, 0x{length:X} {'byte' if length == 1 else 'bytes'}"


def first_at(address):
    """Behind the line of a refused read: the first address that is refused."""
    return f", first at 0x{address:016X}"


def done(asked, rest):
    return f"0x{asked:016X}   0 done, {rest}"


def utc(seconds, ticks):
    """Date and time; Python's years end with 9999, and every 400 years have as many days."""
    cycles, days = divmod(seconds // 86_400, 146_097)
    moment = datetime(1601, 1, 1) + timedelta(days=days, seconds=seconds % 86_400)
    return f"{moment.year + 400 * cycles}-{moment:%m-%d %H:%M:%S}.{ticks:07} UTC"


def time_line(address, number, seconds=0, ticks=0, zeros=False):
    """The line for a time, with the mark of bytes of a page of zeros."""
    counts = f"{seconds} second{'s' * (seconds != 1)}, {ticks} tick{'s' * (ticks != 1)}"
    line = place(address, number) if number else done(address, f"{counts}, {utc(seconds, ticks)}")
    return line + (f", with bytes of a {PLACES[3]}" if zeros else "")


def dump(address, content):
    """The lines of a hex dump; rows that repeat the one before are one star, but for the last row."""
    lines = []
    for at in range(0, len(content), 16):
        row = content[at : at + 16]
        if at > 0 and row == content[at - 16 : at] and at + 16 < len(content):
            lines += ["*"] * (lines[-1] != "*")
            continue
        digits = [f"{byte:02X}" for byte in row] + ["  "] * (16 - len(row))
        text = "".join(chr(byte) if 0x20 <= byte <= 0x7E else "." for byte in row)
        lines.append(f"0x{address + at:016X}  {' '.join(digits[:8])}  {' '.join(digits[8:])}  |{text}|")
    return lines


def shipped_answers(answers=make_case.ANSWERS):
    return [(address, *map(int, line.split())) for address, line, _ in answers]


def shipped_lines(answers=make_case.ANSWERS):
    return [place(*answer) for answer in shipped_answers(answers)]


def counted(count, word):
    return f"{count} {word}" if count == 1 else f"{count} {word}s"


PROFILES = ("64-bit four-level", "32-bit plain", "32-bit PAE")
PLACE_BYTES = 32


def address_space(directory, mode=0, place_in_page=0):
    """What the first line of sheet and of case says of the directory."""
    line = f", {PROFILES[mode]}, directory 0x{directory * 4096 + PLACE_BYTES * place_in_page:X}, directory page 0x{directory:X}"
    return line + (f", place {place_in_page}" if mode == 2 else "")


def json_address_space(directory, mode=0, place_in_page=0):
    given = {"profile": PROFILES[mode], "directory": f"0x{directory * 4096 + PLACE_BYTES * place_in_page:X}"}
    return {**given, "directory_page": f"0x{directory:X}", "place": place_in_page}
