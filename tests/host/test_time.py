"""The verb `time`: dates beside a calendar that is counted day by day, times across pages, marks of zeros, and refusals."""
import functools
import json
import os
import random
import re

from cases import PAGE, Memory, shipped_case
from expected import PLACES, WORDS, fault, place, time_line, utc
from library import Library
from program import ANSWERED, FAILED, REFUSED, Conversation, HostTest, run

SECOND = 10_000_000
DAY = 24 * 60 * 60 * SECOND
LIMIT = 2**63
START_OF_1970 = 116_444_736_000_000_000
START = 0x40000000

MONTHS = (31, 28, 31, 30, 31, 30, 31, 31, 30, 31, 30, 31)
LAST_YEAR = 30828
CENTURIES = (1700, 1800, 1900, 2000, 2100, 2300, 2400, 9900, 10000, 20000, 30700, 30800)
LEAP_YEARS = (1604, 1696, 1904, 1996, 2004, 2024, 9996, 10004, 30824, 30828)
# The days around the ends of February and of the year, in years that differ by the rule of leap years; no 29 February is met
# in others.
ASKED_YEARS = (1601, 1969, 1970, 9999, *CENTURIES, *LEAP_YEARS)
ASKED_DAYS = ((1, 1), (2, 28), (2, 29), (3, 1), (9, 14), (12, 31))
ASKED = {(year, *day) for year in ASKED_YEARS for day in ASKED_DAYS} | {(2014, 6, 25), (2038, 1, 19)}


def all_days():
    """Every date from 1 January 1601 to the end of the last year, one after the other."""
    for year in range(1601, LAST_YEAR + 1):
        is_leap = year % 4 == 0 and (year % 100 != 0 or year % 400 == 0)
        for month, days in enumerate(MONTHS, 1):
            for day in range(1, days + (is_leap and month == 2) + 1):
                yield year, month, day


@functools.cache
def asked_days():
    """How many days each date that is asked for comes after the first; also of dates by chance."""
    chance = set(random.Random(1).sample(range(LIMIT // DAY), 300))
    return {count: date for count, date in enumerate(all_days()) if count in chance or date in ASKED}


def text_of(date, ticks):
    """By the date of a day and the ticks since it began."""
    seconds, rest = divmod(ticks, SECOND)
    year, month, day = date
    clock = f"{seconds // 3600:02}:{seconds // 60 % 60:02}:{seconds % 60:02}"
    return f"{year}-{month:02}-{day:02} {clock}.{rest:07} UTC"


@functools.cache
def asked_times():
    """Ticks and what is to be shown of them, at both ends of each day and within it."""
    places = (0, 1, random.Random(2).randrange(DAY), DAY - 1)
    times = [(count * DAY + at, text_of(date, at)) for count, date in asked_days().items() for at in places]
    return [(ticks, text) for ticks, text in times if 0 < ticks < LIMIT]


class TimeTest(HostTest):
    def case_of(self, times):
        """A case that has these numbers of 8 bytes one after the other, and the addresses of them."""
        pages = len(times) * 8 // PAGE + 1
        memory = Memory(pages + 5)
        for page in range(pages):
            offset = memory.map_page(START + page * PAGE)
            memory.put(offset, *times[page * PAGE // 8 : (page + 1) * PAGE // 8])
        return memory.write(self.directory).words(), [START + 8 * k for k in range(len(times))]

    def shows(self, case, address, number, ticks=0, zeros=False):
        """The line and the answer in JSON for one address."""
        status = REFUSED if number else ANSWERED
        self.says(["time", *case, address], status, [time_line(address, number, *divmod(ticks, SECOND), zeros)])
        time = {"seconds": ticks // SECOND, "ticks": ticks % SECOND, "utc": utc(*divmod(ticks, SECOND))} if not number else {}
        expected = {"address": f"0x{address:X}", "number": number, "words": WORDS[number], **time, "zeros": zeros}
        self.assertEqual(self.answers("time", *case, address, status=status), [expected])


class Dates(TimeTest):
    def test_dates(self):
        """In lines and in JSON, as the count day by day has them."""
        times = asked_times()
        self.assertGreater(len(times), 1500)
        case, addresses = self.case_of([ticks for ticks, _ in times])
        text = "".join(f"0x{address:X}\n" for address in addresses).encode()
        lines = run("time", *case, input=text).stdout.decode().splitlines()
        shown = json.loads(run("time", "--json", *case, input=text).stdout)["answers"]
        self.assertEqual((len(lines), len(shown)), (len(times), len(times)))
        for (ticks, date), line, answer in zip(times, lines, shown):
            counts = re.search(r" 0 done, (\d+) seconds?, (\d+) ticks?, (.*)\Z", line)
            self.assertEqual((int(counts[1]), int(counts[2]), counts[3]), (ticks // SECOND, ticks % SECOND, date))
            self.assertEqual((answer["seconds"], answer["ticks"], answer["utc"]), (ticks // SECOND, ticks % SECOND, date))
            self.assertEqual({type(answer[name]) for name in ("seconds", "ticks")}, {int})
            self.assertEqual(utc(*divmod(ticks, SECOND)), date)

    def test_days_that_are_asked(self):
        dates = set(asked_days().values())
        for year in (1700, 1900, 2100, 30700):
            self.assertLessEqual({(year, 2, 28), (year, 3, 1), (year, 12, 31)}, dates)
            self.assertNotIn((year, 2, 29), dates)
        self.assertLessEqual({(year, 2, 29) for year in (1604, 2000, 2400, 30828)}, dates)
        self.assertLessEqual({(9999, 12, 31), (10000, 1, 1), (30828, 9, 14)}, dates)

    def test_stated_dates(self):
        times = {
            1: "0 seconds, 1 tick, 1601-01-01 00:00:00.0000001 UTC",
            SECOND: "1 second, 0 ticks, 1601-01-01 00:00:01.0000000 UTC",
            START_OF_1970 - 1: "11644473599 seconds, 9999999 ticks, 1969-12-31 23:59:59.9999999 UTC",
            START_OF_1970: "11644473600 seconds, 0 ticks, 1970-01-01 00:00:00.0000000 UTC",
            0x01CF90452D0CF200: "13048154100 seconds, 0 ticks, 2014-06-25 07:15:00.0000000 UTC",
            2**32: "429 seconds, 4967296 ticks, 1601-01-01 00:07:09.4967296 UTC",
            LIMIT - 1: "922337203685 seconds, 4775807 ticks, 30828-09-14 02:48:05.4775807 UTC",
        }
        case, addresses = self.case_of(list(times))
        lines = [f"0x{address:016X}   0 done, {text}" for address, text in zip(addresses, times.values())]
        self.says(["time", *case, *addresses], ANSWERED, lines)


class Refusals(TimeTest):
    """Each with its words, and no date."""

    def test_zero_and_too_large(self):
        case, addresses = self.case_of([0, LIMIT, LIMIT + 1, 2**64 - 1])
        for address, number in zip(addresses, (60, 61, 61, 61)):
            self.shows(case, address, number)

    def test_no_date(self):
        case, addresses = self.case_of([0, LIMIT])
        for address in (*addresses, START + PAGE, 2**47):
            for words in (["time", *case, address], ["time", "--json", *case, address]):
                date = r'UTC|"utc"|\d seconds?\b|\d ticks?\b|"seconds"|"ticks"|\d{4}-\d\d|\d\d:\d\d|1601|1970'
                self.assertNotRegex(run(*words).stdout.decode(), date)

    def test_pages_that_are_refused(self):
        """The first page's refusal, and the second's behind a page that is found or of zeros."""
        memory = Memory(16)
        first, second, third = START, START + 0x10000, START + 0x20000
        for page in (first, second):
            offset = memory.map_page(page)
            memory.bytes[offset : offset + PAGE] = b"\1" * PAGE
        memory.set_entry(second + PAGE, 9 << 32 | 0x80)
        memory.set_entry(third, 0x80)
        memory.set_entry(third + PAGE, 2 << 32 | 0x82)
        case = memory.write(self.directory).words()
        for behind in range(1, 8):
            self.shows(case, first + PAGE - behind, 22)
            self.shows(case, second + PAGE - behind, 27)
            self.shows(case, third + PAGE - behind, 26)
        for address, number in ((first + PAGE, 22), (second + PAGE, 27), (third + PAGE, 26), (0, 21), (2**47, 20)):
            self.shows(case, address, number)

    def test_past_the_top(self):
        memory = Memory(16)
        for page in (2**64 - PAGE, 2**47 - PAGE):
            memory.put(memory.map_page(page) + PAGE - 8, START_OF_1970)
        case = memory.write(self.directory).words()
        for top in (2**64, 2**47):
            self.shows(case, top - 8, 0, START_OF_1970)
            for left in range(1, 8):
                self.shows(case, top - left, 20)

    def test_one_of_several(self):
        case, addresses = self.case_of([START_OF_1970, 0, LIMIT, 1])
        lines = [time_line(addresses[0], 0, 11_644_473_600, 0), place(addresses[1], 60), place(addresses[2], 61)]
        lines.append(time_line(addresses[3], 0, 0, 1))
        self.says(["time", *case, *addresses], REFUSED, lines)

    def test_refused_case(self):
        sheet, image, pagefile = shipped_case(self.directory).words()
        empty = self.write("empty", b"")
        for addresses in ([], ["0xB35110"], ["0xB35110", "0xB38000"]):
            self.says(["time", empty, image, pagefile, *addresses], REFUSED, [fault("case", 10)])


class Fields(TimeTest):
    """Where the 8 bytes lie."""

    def test_every_alignment(self):
        content = random.Random(3).randbytes(64).replace(b"\xff", b"\x7f")
        case, _ = self.case_of([int.from_bytes(content[k : k + 8], "little") for k in range(0, 64, 8)])
        for at in range(9, 18):
            ticks = int.from_bytes(content[at : at + 8], "little")
            self.shows(case, START + at, 61 if ticks >= LIMIT else 0, ticks if ticks < LIMIT else 0)

    def test_across_two_pages(self):
        """Of image, pagefile and zeros in each order, cut at each byte; a byte of a page of zeros is told."""
        memory, chance = Memory(64), random.Random(4)
        pagefile, kinds, contents = bytearray(PAGE), ("image", "pagefile", "zeros"), {}
        places = [(one, other) for one in kinds for other in kinds]
        for number, pair in enumerate(places):
            for half, kind in enumerate(pair):
                address = START + (3 * number + half) * PAGE
                ends = bytes(chance.randrange(1, 0x80) for _ in range(16)) if kind != "zeros" else bytes(16)
                contents[address] = ends[:8] + bytes(PAGE - 16) + ends[8:]
                if kind == "image":
                    offset = memory.map_page(address)
                    memory.bytes[offset : offset + PAGE] = contents[address]
                elif kind == "pagefile":
                    memory.set_entry(address, len(pagefile) // PAGE << 32 | 0x80)
                    pagefile += contents[address]
                else:
                    memory.set_entry(address, 0x80)
        case, marked = memory.write(self.directory, bytes(pagefile)).words(), 0
        for number, pair in enumerate(places):
            first = START + 3 * number * PAGE
            both = contents[first] + contents[first + PAGE]
            for behind in range(1, 8):
                at = PAGE - behind
                ticks, zeros = int.from_bytes(both[at : at + 8], "little"), "zeros" in pair
                self.shows(case, first + at, 0 if ticks else 60, ticks, zeros)
                marked += zeros
        self.assertEqual(marked, 5 * 7)

    def test_zeros(self):
        """Zeros that a file has are not marked; those of a page of zeros are."""
        memory = Memory(8)
        memory.map_page(START)
        memory.set_entry(START + PAGE, 0x80)
        case = memory.write(self.directory).words()
        for address, zeros in ((START, False), (START + PAGE - 8, False), (START + PAGE - 7, True), (START + PAGE, True)):
            self.shows(case, address, 60, zeros=zeros)
        line = f"0x{START + PAGE:016X}  60 refused: time zero, with bytes of a {PLACES[3]}"
        self.says(["time", *case, START + PAGE], REFUSED, [line])

    def test_as_the_library_says(self):
        case = shipped_case(self.directory).words()
        content, library, chance = [path.read_bytes() for path in case], Library(), random.Random(5)
        met = set()
        for _ in range(40):
            page = chance.choice((0xB35000, 0xB37000, 0xB38000, 0x777B0000, 0xB34000, 0xB3E000, 0xFFFFF80003041000, 0xB43000))
            address = page + chance.choice((0, 0x100, 0x110, chance.randrange(PAGE), PAGE - 3))
            number, seconds, ticks = library.read_time(content, address)
            self.shows(case, address, number, int(seconds) * SECOND + int(ticks), library.read(content, address, 8)[2] == 1)
            met.add(number)
        self.assertLessEqual({0, 27, 60}, met)


class Addresses(TimeTest):
    """They are taken as `resolve` takes them."""

    def setUp(self):
        super().setUp()
        self.case, _ = self.case_of([0, START_OF_1970])
        self.line = time_line(START + 8, 0, 11_644_473_600, 0)

    def test_forms(self):
        words = ["0x40000008", "0X40000008", "1073741832", "0x0000000040000008", "00000000`40000008", "0`40000008"]
        self.says(["time", *self.case, *words], ANSWERED, [self.line] * len(words))
        text = " \t" + "\t \r\n\n  \n".join(words)
        self.says(["time", *self.case], ANSWERED, [self.line] * len(words), input=text.encode())

    def test_no_address(self):
        self.says(["time", *self.case], ANSWERED, [], input=b"\n")
        self.assertEqual(self.answers("time", *self.case), [])

    def test_one_by_one(self):
        talk = Conversation("time", *self.case)
        for _ in range(3):
            self.assertEqual(talk.ask(b"0x40000008").decode(), self.line + "\n")
        self.assertEqual(talk.end(), (ANSWERED, b"", b""))

    def test_wrong_use(self):
        self.fails(["time", *self.case, "junk"], "'junk': no number in hex")
        self.fails(["time", *self.case, "0000000040000008"], "hex or decimal?")
        self.fails(["time", *self.case, "0", "-o", "out"], "time takes no -o")
        self.fails(["time", *self.case], "standard input, line 2: no number", input=b"\njunk\n")

    def test_without_pagefile(self):
        self.says(["time", *self.case[:2], "--no-pagefile", START + 8], ANSWERED, [self.line])

    def test_failures_in_a_document(self):
        """It is whole, with the answers that were given before."""
        answer = self.answers("time", *self.case, START + 8)
        done = run("time", "--json", *self.case, input=b"0x40000008\njunk\n")
        document = json.loads(done.stdout)
        self.assertEqual((done.returncode, document["answers"]), (FAILED, answer))
        self.assertIn("line 2: no number", document["error"])
        talk = Conversation("time", "--json", *self.case)
        talk.send(b"0x40000008")
        out = talk.shown_until(b"}")
        os.truncate(self.case[1], PAGE)
        status, rest, _ = talk.end(b"0x40000008")
        document = json.loads(out + rest)
        self.assertEqual((status, document["answers"]), (FAILED, answer))
        self.assertIn("image: was cut short", document["error"])
