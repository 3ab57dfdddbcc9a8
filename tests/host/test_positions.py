"""11 and 18: at which byte of which file the number begins, by every verb, in lines and in JSON, and by every export."""
import ctypes
import json

from cases import MACHINE_RUNS, PAGE, make_case, sheet_of, shipped_case
from expected import REFUSALS, WORDS, at_byte, fault, faulty_number, marked_row
from library import SIZE, Library
from program import REFUSED, HostTest, run
from test_use import CASE_VERBS

TOO_LONG, NOT_SHORTEST = 11, 18

# The fields of sheets and of maps.
SHEETS = (
    [1, 0x187, 2, 1, 0x9E, 0x61, 0x3FEF0],
    [1, 2**36 - 1, 4, *[1, 2**14] * 4],
    [2, 0x39, 1, 0, 2, 1, 0x9E, 0x61, 0x3FEF0],
    [2, 0x7600, 2, 127, 1, 0, 2**14],
)
MAPS = (
    [1, 0xB10, 3, 1, 2, 5, 22, 1],
    [1, 2**35 - 9, 9, 2, 1, 2**36 - 1, 3, 1, 1, 3, 0x4000, 31, 4],
    [1, 0xC2E61, 4, 1, 1, 3, 33, 1, 34, 2],
)


def form(*fields):
    return b"".join(map(make_case.groups, fields))


def faulty_forms(number):
    """Forms of a number that are refused, each with the refusal; one of six groups has no longer form that is 18."""
    groups = form(number)
    open_end = groups[:-1] + bytes([groups[-1] | 0x80])
    if len(groups) < 6:
        yield NOT_SHORTEST, open_end + b"\0"
        yield NOT_SHORTEST, open_end + b"\x80" * (5 - len(groups)) + b"\0"
    yield TOO_LONG, open_end + b"\x80" * (6 - len(groups))
    yield TOO_LONG, b"\xFF" * 6


def faulty_files(fields):
    """Each field in each form that is refused, with and without what stands behind it: refusal, position, bytes."""
    for at, number in enumerate(fields):
        before = form(*fields[:at])
        for refusal, groups in faulty_forms(number):
            for rest in (b"", form(*fields[at + 1 :])):
                yield refusal, len(before), before + groups + rest


# As a sheet and as a map: 10 inside a number, and 12 for a number of 2^36.
WITHOUT_POSITION = ((10, bytes.fromhex("01 80 80 80 80 80")), (12, bytes.fromhex("01 00 01 01 80 80 80 80 80 02")))


class Positions(HostTest):
    def document(self, *words):
        done = run(words[0], "--json", *words[1:])
        self.assertEqual((done.stderr, done.returncode), (b"", REFUSED))
        return json.loads(done.stdout)

    def refused_as_a_whole(self, name, words, lines, number, **more):
        self.says(words, REFUSED, lines)
        expected = {"verb": words[0], name: {"number": number, "words": WORDS[number], **more}, "answers": []}
        self.assertEqual(self.document(*words), expected)

    def faulty(self, name, words, number, position, content):
        self.refused_as_a_whole(name, words, faulty_number(name, number, content, position), number, position=f"0x{position:X}")


class Sheets(Positions):
    def setUp(self):
        super().setUp()
        self.files = shipped_case(self.directory)

    def words(self, verb, numbers, sheet):
        self.files.sheet.write_bytes(sheet)
        return [verb, *self.files.words(), *numbers]

    def test_every_field(self):
        positions = set()
        for fields in SHEETS:
            for number, position, content in faulty_files(fields):
                self.faulty("case", self.words("resolve", ["0"], content), number, position, content)
                positions.add(position)
        self.assertGreater(len(positions), 12)

    def test_every_verb(self):
        """Whatever is asked of the case, and if nothing is."""
        out = self.directory / "out"
        asked = [(verb, numbers) for verb, numbers in CASE_VERBS.items() if verb != "case"]
        asked += [("resolve", []), ("page", []), ("resolve", ["0", "0x800000000000"]), ("read", ["0", "0"])]
        asked += [(verb, [*CASE_VERBS[verb], "-o", out]) for verb in ("page", "read", "map")] + [("processor-block", ["--all"])]
        for verb, numbers in asked:
            for number, position, content in list(faulty_files(SHEETS[0]))[::11]:
                self.faulty("case", self.words(verb, numbers, content), number, position, content)
        self.assertFalse(out.exists())

    def test_verb_case(self):
        """Before the lengths of the two files, which are told of every case."""
        lengths = {f"{file.name}_length": f"0x{file.stat().st_size:X}" for file in (self.files.image, self.files.pagefile)}
        behind = "".join(f", {name.replace('_', ' ')} {length}" for name, length in lengths.items())
        for number, position, content in faulty_files(SHEETS[0]):
            words = self.words("case", [], content)
            line = f"{number} refused: {REFUSALS[number]}{at_byte(position, 'sheet')}{behind}"
            self.says(words, REFUSED, [line, *marked_row(content, position)])
            expected = {"number": number, "words": WORDS[number], "position": f"0x{position:X}", **lengths}
            self.assertEqual(self.answers(*words, status=REFUSED), [expected])

    def test_rows(self):
        """The number begins and the sheet ends at each place of a row; in the line the bytes stand as they are."""
        for length in range(18):
            before = form(1, 7, 100, *[1] * 15)[:length]
            for behind in (b"\x80\0", b"\x80\0" + bytes(range(0x40, 0x60))):
                content = before + behind
                self.faulty("case", self.words("resolve", [], content), NOT_SHORTEST, len(before), content)
        rows = [
            "0x0000000000000010  01 80 00 05                                       |....|",
            "                       ^^",
        ]
        self.assertEqual(marked_row(form(1, 7, 100, *[1] * 14) + b"\x80\0\5", 0x11), rows)

    def test_last_number_of_the_longest_sheet(self):
        content = sheet_of(2**36 - 1, [(2 * k, 1) for k in range(1000)])[:-1] + b"\x81\0"
        self.faulty("case", self.words("resolve", ["0"], content), NOT_SHORTEST, len(content) - 2, content)
        self.assertGreater(len(content), 2000)

    def test_output_on_standard_output(self):
        """What is told goes to standard error then."""
        content = b"\x80\0"
        for verb in ("page", "read", "map"):
            done = run(*self.words(verb, CASE_VERBS[verb], content), "-o", "-")
            self.assertEqual((done.returncode, done.stdout), (REFUSED, b""))
            self.assertEqual(done.stderr.decode().splitlines(), faulty_number("case", NOT_SHORTEST, content, 0))

    def test_no_other_number_has_one(self):
        for number, content in WITHOUT_POSITION:
            for verb, numbers in CASE_VERBS.items():
                words = self.words(verb, numbers, content)
                if verb == "case":
                    self.assertNotIn("position", self.answers(*words, status=REFUSED)[0])
                    self.assertNotIn(b"at byte", run(*words).stdout)
                else:
                    self.refused_as_a_whole("case", words, [fault("case", number)], number)

    def test_stated_sheets(self):
        for text, number, position in (
            ("80 00", NOT_SHORTEST, 0),
            ("01 80 80 80 80 80 80", TOO_LONG, 1),
            ("01 00 02 00 01 81 00", NOT_SHORTEST, 5),
        ):
            content = bytes.fromhex(text)
            self.faulty("case", self.words("page", ["0"], content), number, position, content)


class Maps(Positions):
    def test_every_field(self):
        for fields in MAPS:
            for number, position, content in faulty_files(fields):
                self.faulty("map", ["lookup", self.write("map", content), "0xB10000"], number, position, content)

    def test_any_addresses(self):
        content = form(*MAPS[0][:4]) + b"\x82\0"
        for addresses in ([], ["0"], ["0xB10000", "0x800000000000"]):
            self.faulty("map", ["lookup", self.write("map", content), *addresses], NOT_SHORTEST, 5, content)

    def test_far_into_a_map(self):
        content = form(1, 0, 2**20) + form(1, 1, 5, 3, 1) * 3000 + b"\x80" * 7
        self.faulty("map", ["lookup", self.write("map", content)], TOO_LONG, len(content) - 7, content)

    def test_no_other_number_has_one(self):
        for number, content in WITHOUT_POSITION:
            self.refused_as_a_whole("map", ["lookup", self.write("map", content)], [fault("map", number)], number)


class Exports(HostTest):
    """The offset or the length of each record that has one is the position; no buffer changes, and all else is 0."""

    def test_every_call(self):
        library, room = Library(), (ctypes.c_uint64 * 8)(*[7] * 8)
        buffer = [room, SIZE(len(room))]
        image = bytes(sum(pages for _, pages in MACHINE_RUNS[:1]) * PAGE)
        for number, position, content in faulty_files(SHEETS[0]):
            case = [content, image, b""]
            for name, rest, answer in (
                ("glint_resolve", [0xB10000], (number, position, 0)),
                ("glint_page", [0xB10000], (0, 0, 0)),
                ("glint_read", [0xB10000, 8, *buffer], (number, position, 0)),
                ("glint_read_time", [0xB10000], (number, 0, 0)),
                ("glint_map", [0xB10000, 1, *buffer], (number, position)),
                ("glint_processor_block", [0], (number, position, 0)),
                ("glint_process_list", [0xB10000, *buffer], (number, position)),
            ):
                self.assertEqual(library.call(name, case, *rest), answer, name)
            self.assertEqual(library.call("glint_case", [content], len(image), 0, *buffer), (number, 0, 0, 0, position))
            self.assertEqual(library.image_length(content), (number, position))
        for number, position, content in faulty_files(MAPS[0]):
            self.assertEqual(library.lookup(content, 0xB10000), (number, position))
        self.assertEqual(list(room), [7] * 8)

    def test_no_other_number_has_one(self):
        library = Library()
        for number, content in WITHOUT_POSITION:
            self.assertEqual(library.resolve([content, b"", b""], 0), (number, 0, 0))
            self.assertEqual(library.image_length(content), (number, 0))
            self.assertEqual(library.lookup(content, 0), (number, 0))
