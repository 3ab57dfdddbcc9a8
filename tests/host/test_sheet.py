"""The verb `sheet`: ranges as people write them, what is shown of them, the sheet's bytes, and the refusals."""
import random

from cases import MACHINE_IMAGE, MACHINE_RUNS, PAE, PAGE, PLAIN, machine_case, make_case, sheet_of, shipped_case
from expected import REFUSALS, WORDS, address_space, counted, dump, json_address_space, shipped_answers, shipped_lines
from library import Library
from program import ANSWERED, REFUSED, HostTest, run

MOST_RUNS = 1000
TOP = 2**36
DIRECTORY = 0x187


def head(number, space, ranges, sheet=None, asked=None):
    """The first line, for a space as (directory page, mode, place) and ranges as (first page, pages)."""
    line = f"{number:2} " + ("refused: " + REFUSALS[number] if number else f"done, 0x{len(sheet):X} bytes")
    line += f"{address_space(*space)}, {counted(len(ranges), 'range')}"
    return line + (f", image length asked for 0x{asked * PAGE:X}" if number == 0 else "")


def range_lines(ranges):
    bytes_and_pages = "0x{:016X}, 0x{:X} bytes, first page 0x{:X}, {}"
    return [bytes_and_pages.format(first * PAGE, pages * PAGE, first, counted(pages, "page")) for first, pages in ranges]


def joined(ranges):
    """Those that touch as one."""
    runs = []
    for first, pages in ranges:
        if runs and sum(runs[-1]) == first:
            runs[-1] = (runs[-1][0], runs[-1][1] + pages)
        else:
            runs.append((first, pages))
    return runs


def words(ranges):
    """START+LENGTH in bytes."""
    return [f"0x{first * PAGE:X}+0x{pages * PAGE:X}" for first, pages in ranges]


class SheetTest(HostTest):
    def written(self, directory, ranges, mode=0, place=0):
        """The lines and the sheet of ranges that are not refused."""
        sheet, asked = sheet_of(directory, joined(ranges), mode, place), sum(pages for _, pages in ranges)
        return [head(0, (directory, mode, place), ranges, sheet, asked), *range_lines(ranges)], sheet

    def writes(self, operands, directory, ranges, mode=0, place=0, **how):
        lines, sheet = self.written(directory, ranges, mode, place)
        self.says(["sheet", *operands], ANSWERED, lines + dump(0, sheet), **how)

    def refuses(self, operands, number, directory, ranges, mode=0, place=0, **how):
        lines = [head(number, (directory, mode, place), ranges), *range_lines(ranges)]
        self.says(["sheet", *operands], REFUSED, lines, **how)


class Forms(SheetTest):
    """The machine's two ranges, in every form."""

    def machine(self, *operands, **how):
        self.writes(operands, DIRECTORY, MACHINE_RUNS, **how)

    def test_the_papers_sheet(self):
        self.machine("0x187000", "0x1000+0x9E000", "0x100000+0x3FEF0000")
        lines, sheet = self.written(DIRECTORY, MACHINE_RUNS)
        self.assertEqual(sheet, bytes.fromhex("01 87 03 02 01 9E 01 61 F0 FD 0F"))
        self.assertTrue(lines[0].endswith(f", 2 ranges, image length asked for 0x{MACHINE_IMAGE:X}"))

    def test_forms_of_numbers(self):
        self.machine("1601536", "4096+647168", "1048576+1072627712")
        self.machine("0X187000", "0x00000000`00001000+0`0009e000", "0x100000+000000003FEF0000")

    def test_end_as_last_byte_and_as_the_byte_behind(self):
        self.machine("0x187000", "0x1000-0x9EFFF", "0x100000-0x3FFEFFFF")
        self.machine("0x187000", "0x1000-0x9F000", "0x100000-0x3FFF0000")
        self.machine("0x187000", "4096-651263", "0x100000+0x3FEF0000")

    def test_pages(self):
        self.machine("--pages", "0x187", "0x1+0x9E", "0x100+0x3FEF0")
        self.machine("391", "1+158", "256+261872", "--pages")

    def test_input(self):
        text = b"0x1000+0x9E000\n0x100000-0x3FFEFFFF\n"
        for given in (text, text[:-1], b"\n \t\n  0x1000+0x9E000\t\r\n\n0x100000+0x3FEF0000  \n\n"):
            self.machine("0x187000", input=given)
        self.machine("0x187", "--pages", input=b"1+0x9E\n0x100+0x3FEF0")

    def test_input_is_not_read_if_ranges_are_given(self):
        self.machine("0x187000", "0x1000+0x9E000", "0x100000+0x3FEF0000", input=b"junk\n")

    def test_a_page_at_either_end(self):
        last = TOP * PAGE - 1
        self.writes(["0", "0-0xFFF", f"0x{last - PAGE + 1:X}-0x{last:X}"], 0, [(0, 1), (TOP - 1, 1)])
        self.writes(["0", "0-0x1000", f"0x{last - PAGE + 1:X}-0x{last + 1:X}"], 0, [(0, 1), (TOP - 1, 1)])
        self.writes([f"0x{(TOP - 1) * PAGE:X}", "0+0x1000"], TOP - 1, [(0, 1)])

    def test_shipped_case(self):
        """The sheet that is written of what a case has is the case's own, and answers as it does."""
        files = shipped_case(self.directory)
        _, (directory, _, _), runs = Library().case([path.read_bytes() for path in files.words()])
        out, ranges = self.directory / "written", [(first, pages) for first, pages, _ in runs]
        lines, sheet = self.written(directory, ranges)
        self.says(["sheet", directory * PAGE, *words(ranges), "-o", out], ANSWERED, lines)
        self.assertEqual((out.read_bytes(), sheet), (files.sheet.read_bytes(), make_case.sheet()))
        addresses = [hex(answer[0]) for answer in shipped_answers()]
        self.says(["resolve", out, *files.words()[1:], *addresses], REFUSED, shipped_lines())


class Profiles(SheetTest):
    """Sheets of 32-bit machines, and the directory by the value of CR3."""

    def machine(self, *operands, mode=0, place=0, directory=DIRECTORY, **how):
        self.writes([*operands, *words(MACHINE_RUNS)], directory, MACHINE_RUNS, mode, place, **how)

    def test_directory_page(self):
        self.machine("--plain", "0x187000", mode=PLAIN)
        self.machine("0x187000", "--pae", mode=PAE)
        self.writes(["--pages", "0x187", "--pae", "1+0x9E", "0x100+0x3FEF0"], DIRECTORY, MACHINE_RUNS, PAE)

    def test_the_papers_register(self):
        self.machine("--pae", "--cr3", "0x07600820", mode=PAE, place=65, directory=0x7600)
        lines, sheet = self.written(0x7600, MACHINE_RUNS, PAE, 65)
        self.assertIn(", 32-bit PAE, directory 0x7600820, directory page 0x7600, place 65, 2 ranges", lines[0])
        self.assertEqual(sheet, bytes.fromhex("02 80 EC 01 02 41 02 01 9E 01 61 F0 FD 0F"))

    def test_places(self):
        for value, directory, place in (
            ("0", 0, 0),
            ("0x20", 0, 1),
            ("0x187000", 0x187, 0),
            ("0x187FE0", 0x187, 127),
            ("0xFFFFFFE0", 0xFFFFF, 127),
            ("123734048", 0x7600, 65),
        ):
            self.machine("--cr3", value, "--pae", mode=PAE, place=place, directory=directory)

    def test_bits_that_are_no_part_of_the_address(self):
        """Flags of the cache and, of a 64-bit machine, a number of the process."""
        for value in ("0x187000", "0x187018", "0x18701F"):
            self.machine("--cr3", value, "--plain", mode=PLAIN)
        for value in ("0x187000", "0x187018", "0x187002", "0x187820", "0x187FFF", "00000000`00187003"):
            self.machine("--cr3", value)
        self.machine("--cr3", "0xFFFFFFFFF000", directory=TOP - 1)

    def test_ranges_in_pages_and_from_input(self):
        operands = ["--pae", "--cr3", "0x07600820"]
        self.writes([*operands, "--pages", "1+0x9E", "0x100+0x3FEF0"], 0x7600, MACHINE_RUNS, PAE, 65)
        self.writes(operands, 0x7600, MACHINE_RUNS, PAE, 65, input="\n".join(words(MACHINE_RUNS)).encode())
        self.refuses(operands, 12, 0x7600, [], PAE, 65, input=b"")

    def test_refused(self):
        """What was given is shown back all the same."""
        self.refuses(["--pae", "--cr3", "0x7E0", "0x1000+0"], 13, 0, [(1, 0)], PAE, 63)
        self.refuses(["--plain", f"0x{TOP * PAGE:X}", "0x1000+0x1000"], 12, TOP, [(1, 1)], PLAIN)
        self.refuses(["--cr3", "0xFFFFFFFFFFFFFFFF", "0x1000+0x1000"], 12, 2**52 - 1, [(1, 1)])

    def test_shipped_machines(self):
        """The sheet that is written of what `case` shows is the machine's own."""
        for name, machine in make_case.MACHINES.items():
            files, out = machine_case(name, self.directory), self.directory / "written"
            (shown,) = self.answers("case", *files.words())
            profile = {"32-bit plain": "--plain", "32-bit PAE": "--pae"}[shown["profile"]]
            ranges = [f"{run['start']}-{run['last']}" for run in shown["runs"]]
            self.answers("sheet", profile, "--cr3", shown["directory"], *ranges, "-o", out)
            self.assertEqual(out.read_bytes(), files.sheet.read_bytes())
            self.assertEqual(out.read_bytes(), sheet_of(machine.directory, machine.runs, machine.mode, machine.place))

    def test_json(self):
        for operands, space in (
            (["--pae", "--cr3", "0x07600820"], (0x7600, PAE, 65)),
            (["--plain", "--cr3", "0x39018"], (0x39, PLAIN, 0)),
            (["--cr3", "0x187002"], (0x187, 0, 0)),
            (["--plain", "0x39000"], (0x39, PLAIN, 0)),
        ):
            (shown,) = self.answers("sheet", *operands, "0x1000+0x1000")
            sheet = sheet_of(space[0], [(1, 1)], *space[1:])
            run_shown = {"start": "0x1000", "length": "0x1000", "first_page": "0x1", "pages": 1}
            expected = {"number": 0, "words": WORDS[0], "length": f"0x{len(sheet):X}", **json_address_space(*space)}
            expected |= {"range_count": 1, "asked_length": "0x1000", "ranges": [run_shown], "bytes": sheet.hex().upper()}
            self.assertEqual(list(shown.items()), list(expected.items()))
            (refused,) = self.answers("sheet", *operands, "0x1000+0", status=REFUSED)
            self.assertLessEqual({"number": 13, **json_address_space(*space)}.items(), {**refused, "ranges": 0}.items())

    def test_as_the_library_says(self):
        chance, library = random.Random(2), Library()
        for _ in range(20):
            mode, place, directory = chance.choice((PLAIN, PAE)), chance.randrange(128), chance.getrandbits(20)
            place = place if mode == PAE else 0
            value = f"0x{directory * PAGE + 32 * place:X}"
            number, sheet = library.write_sheet(directory, MACHINE_RUNS, mode, place)
            self.assertEqual((number, sheet), (0, sheet_of(directory, MACHINE_RUNS, mode, place)))
            self.machine(("--plain", "--pae")[mode - 1], "--cr3", value, mode=mode, place=place, directory=directory)
        for mode, place in ((3, 0), (2**64 - 1, 0), (0, 1), (PLAIN, 1), (PAE, 128), (PAE, 2**64 - 1)):
            self.assertEqual(library.write_sheet(0x7600, MACHINE_RUNS, mode, place), (12, b""))


class Judged(SheetTest):
    """What the call judges; every range is shown as it was given."""

    def test_joined(self):
        self.writes(["0x1000", *words([(1, 2), (3, 4), (7, 1)])], 1, [(1, 2), (3, 4), (7, 1)])
        self.writes(["0x1000", *words([(0, 2), (3, 4), (7, 1), (9, 1)])], 1, [(0, 2), (3, 4), (7, 1), (9, 1)])

    def test_13(self):
        for ranges in (
            [(1, 0)],
            [(5, 2), (1, 2)],
            [(1, 2), (2, 2)],
            [(1, 2), (1, 2)],
            [(1, 4), (2, 1)],
            [(TOP - 1, 2)],
            [(0, TOP - 1), (TOP - 1, 1)],
            [(3, 1), (4, 0), (5, 1)],
        ):
            self.refuses(["0x1000", *words(ranges)], 13, 1, ranges)
        self.refuses(["0x1000", "0x2000-0x1FFF"], 13, 1, [(2, 0)])

    def test_12(self):
        for directory, ranges in (
            (TOP, [(1, 1)]),
            (1, [(TOP, 1)]),
            (1, [(0, TOP)]),
            (1, [(1, 0), (3, 1), (2**52 - 1, 2**52 - 1)]),
            (2**52 - 1, [(1, 1)]),
        ):
            self.refuses([f"0x{directory * PAGE:X}", *words(ranges)], 12, directory, ranges)
            in_pages = [f"{first}+{pages}" if first < 10**15 else f"0x{first:X}+0x{pages:X}" for first, pages in ranges]
            self.refuses(["--pages", f"0x{directory:X}", *in_pages], 12, directory, ranges)

    def test_no_ranges(self):
        for text in (b"", b"\n\n", b" \t"):
            self.refuses(["0x1000"], 12, 1, [], input=text)

    def test_as_many_ranges_as_there_may_be(self):
        for count in (MOST_RUNS - 1, MOST_RUNS, MOST_RUNS + 1):
            for step in (1, 3):
                ranges = [(step * k, 1) for k in range(count)]
                text = "\n".join(words(ranges)).encode()
                if count <= MOST_RUNS:
                    self.writes(["0x1000"], 1, ranges, input=text)
                else:
                    self.refuses(["0x1000"], 12, 1, ranges, input=text)

    def test_numbers_of_six_groups(self):
        ranges = [(2 * k + 1, 1) for k in range(MOST_RUNS - 1)] + [(TOP - 2**35, 2**35)]
        text = "\n".join(words(ranges)).encode()
        self.writes([f"0x{(TOP - 1) * PAGE:X}"], TOP - 1, ranges, input=text)
        self.writes([f"0x{(TOP - 1) * PAGE:X}", "--pae"], TOP - 1, ranges, PAE, input=text)

    def test_as_the_library_says(self):
        chance, library = random.Random(1), Library()
        for _ in range(40):
            directory, ranges, end = chance.choice((0, 7, TOP - 1, TOP)), [], 0
            for _ in range(chance.randrange(1, 6)):
                first = end + chance.choice((0, 0, 1, 5, -1 if end else 0, TOP // 4))
                ranges.append((first, chance.choice((1, 1, 2, 0x9E, TOP // 4, chance.choice((0, TOP))))))
                end = sum(ranges[-1])
            number, sheet = library.write_sheet(directory, ranges)
            shown = self.answers("sheet", directory * PAGE, *words(ranges), status=REFUSED if number else ANSWERED)[0]
            self.assertEqual((shown["number"], bytes.fromhex(shown.get("bytes", ""))), (number, sheet))


class WrongUse(SheetTest):
    def test_half_pages(self):
        whole = "0x1000+0x1000"
        for operands, wrong, message in (
            (["0x187800", whole], "0x187800", "DIRECTORY is not a multiple of 4,096"),
            (["391", whole], "391", "DIRECTORY is not a multiple of 4,096"),
            (["0x187000", whole, "0x2800+0x1000"], "0x2800+0x1000", "START is not a multiple of 4,096"),
            (["0x187000", "0x1001-0x1FFF", whole], "0x1001-0x1FFF", "START is not a multiple of 4,096"),
            (["0x187000", "0x1000+0x800"], "0x1000+0x800", "LENGTH is not a multiple of 4,096"),
            (["0x187000", "1+158"], "1+158", "START is not a multiple of 4,096"),
            (["0x187000", "0x1000-0x1FFE"], "0x1000-0x1FFE", "END is neither the last byte of a page nor the byte behind it"),
            (["0x187000", "0x1000-0x2001"], "0x1000-0x2001", "END is neither the last byte of a page nor the byte behind it"),
        ):
            self.fails(["sheet", *operands], f"'{wrong}': {message}")

    def test_ranges_that_are_none(self):
        for text in ("", "0x1000", "junk", "0x1000 0x1000", "0x1000:0x2000"):
            self.fails(["sheet", "0x1000", text], f"'{text}': no range START+LENGTH or START-END")
        for text in ("+", "0x1000+", "+0x1000", "0x1000-", "0x1000+0x1000+0x1000", "0x1000-0x2000-0x3000", "0x1000+-0x1000"):
            self.fails(["sheet", "0x1000", text], f"'{text}': no number in hex")
        for text in ("00001000-0009efff", "0x1000+010", "0x1000-010"):
            self.fails(["sheet", "0x1000", text], f"'{text}': ")
        self.fails(["sheet", "0x1000", "0x3000-0x1FFF"], "'0x3000-0x1FFF': END is before START")
        self.fails(["sheet", "junk", "0x1000+0x1000"], "'junk': no number in hex")
        self.fails(["sheet", "010", "0x1000+0x1000"], "'010': hex or decimal?")

    def test_pages(self):
        for text in ("1-2", "1", "0x1000-0x1FFF"):
            self.fails(["sheet", "--pages", "1", text], f"'{text}': no range START+LENGTH")
        so_many = "so many pages have no number of bytes of 64 bits"
        for text in ("0x10000000000000+1", "1+0x10000000000000", "0xFFFFFFFFFFFFFFFF+1"):
            self.fails(["sheet", "--pages", "1", text], f"'{text}': {so_many}")
        self.fails(["sheet", "--pages", "0x10000000000000", "1+1"], f"'0x10000000000000': {so_many}")
        self.fails(["sheet", "0", "0-0xFFFFFFFFFFFFFFFF"], f"'0-0xFFFFFFFFFFFFFFFF': {so_many}")

    def test_input(self):
        for line, message in (
            (b"junk", "no range START+LENGTH or START-END"),
            (b"0x1000 + 0x1000", "no number in hex"),
            (b"0x1000+0x800", "LENGTH is not a multiple of 4,096"),
            (b"0x1000+0x1000\0", "no number in hex"),
            (b"0x1000+0x" + b"0" * 200, "too long for a range"),
        ):
            self.fails(["sheet", "0x1000"], f"standard input, line 3: {message}", input=b"0x1000+0x1000\n\n" + line + b"\n")

    def test_options(self):
        self.fails(["sheet", "0x1000", "0x1000+0x1000", "--no-pagefile"], "sheet takes no --no-pagefile")
        self.fails(["sheet"], "too few operands")
        for options in (["--plain"], ["--pae"], ["--pages"]):
            self.fails(["sheet", *options], "too few operands")

    def test_profiles(self):
        whole = "0x1000+0x1000"
        for directory in (["0x1000"], ["--cr3", "0x1000"]):
            self.fails(["sheet", "--plain", "--pae", *directory, whole], "--plain and --pae exclude each other")
        not_whole = "'0x07600820': DIRECTORY is not a multiple of 4,096"
        self.fails(["sheet", "--pae", "0x07600820", whole], f"{not_whole}; --cr3 takes a place in the page too")
        for options in ([], ["--plain"]):
            self.fails(["sheet", *options, "0x07600820", whole], not_whole)

    def test_cr3(self):
        whole = "0x1000+0x1000"
        for options, value, message in (
            (["--pae"], "0x07600821", "CR3 is not a multiple of 32"),
            (["--pae"], "0x07600830", "CR3 is not a multiple of 32"),
            (["--pae"], "0x0760083F", "CR3 is not a multiple of 32"),
            (["--pae"], "0x107600820", "CR3 of a 32-bit machine has 32 bits"),
            (["--plain"], "0x100000000", "CR3 of a 32-bit machine has 32 bits"),
            (["--plain"], "0x07600820", "bits 5 to 11 of CR3 are a place in the page, which only --pae has"),
            (["--plain"], "0x39020", "bits 5 to 11 of CR3 are a place in the page, which only --pae has"),
            ([], "junk", "no number in hex"),
            ([], "", "no number in hex"),
            (["--pae"], "07600820", "hex or decimal?"),
            (["--pae"], "0x7600000+0x1000", "no number in hex"),
        ):
            self.fails(["sheet", *options, "--cr3", value, whole], f"'{value}': {message}")

    def test_cr3_and_a_directory(self):
        for directory in ("0x1000", "4096"):
            expected = f"'{directory}': no range, and --cr3 stands in place of DIRECTORY"
            self.fails(["sheet", "--cr3", "0x1000", directory, "0x1000+0x1000"], expected)
            self.fails(["sheet", directory, "--cr3", "0x1000"], expected)
        self.fails(["sheet", "--cr3", "0x1000", "junk"], "'junk': no range START+LENGTH or START-END")
        for operands in (["--cr3"], ["--cr3", "0x1000", "--cr3", "0x1000"], ["0x1000+0x1000", "--cr3"]):
            self.fails(["sheet", *operands], "--cr3 takes one value")
        self.fails(["sheet", "--cr3=0x1000", "0x1000+0x1000"], "no option '--cr3=0x1000'")


class Output(SheetTest):
    def setUp(self):
        super().setUp()
        self.out = self.directory / "out"
        self.operands = ["0x187000", "0x1000+0x9E000", "0x100000+0x3FEF0000"]
        self.lines, self.sheet = self.written(DIRECTORY, MACHINE_RUNS)

    def test_file(self):
        self.says(["sheet", *self.operands, "-o", self.out], ANSWERED, self.lines)
        self.assertEqual(self.out.read_bytes(), self.sheet)
        self.out.write_bytes(b"longer than a sheet of two runs")
        self.says(["sheet", "0x187000", "-o", self.out], ANSWERED, self.lines, input=b"0x1000+0x9E000\n0x100000+0x3FEF0000")
        self.assertEqual(self.out.read_bytes(), self.sheet)

    def test_standard_output(self):
        done = run("sheet", *self.operands, "-o", "-")
        self.assertEqual((done.returncode, done.stdout), (ANSWERED, self.sheet))
        self.assertEqual(done.stderr.decode().splitlines(), self.lines)

    def test_refusal_makes_no_file(self):
        for content in (None, b"as it was"):
            if content is not None:
                self.out.write_bytes(content)
            self.refuses(["0x1000", "0x1000+0", "-o", self.out], 13, 1, [(1, 0)])
            self.fails(["sheet", "0x1000", "0x1000+1", "-o", self.out], "LENGTH is not a multiple of 4,096")
            self.assertEqual(self.out.read_bytes() if self.out.exists() else None, content)

    def test_file_of_the_ranges_stays(self):
        ranges = self.write("ranges", b"0x1000+0x1000\n")
        with ranges.open("rb") as given:
            self.fails(["sheet", "0x1000", "-o", ranges], "is open on descriptor 0, and is not replaced", stdin=given)
        self.assertEqual(ranges.read_bytes(), b"0x1000+0x1000\n")

    def test_json(self):
        ranges = [
            {"start": f"0x{first * PAGE:X}", "length": f"0x{pages * PAGE:X}", "first_page": f"0x{first:X}", "pages": pages}
            for first, pages in MACHINE_RUNS
        ]
        given = {**json_address_space(DIRECTORY), "range_count": 2}
        done = {"number": 0, "words": WORDS[0], "length": "0xB", **given, "asked_length": f"0x{MACHINE_IMAGE:X}", "ranges": ranges}
        self.assertEqual(self.answers("sheet", *self.operands), [{**done, "bytes": self.sheet.hex().upper()}])
        self.assertEqual(self.answers("sheet", *self.operands, "-o", self.out), [done])
        refused = {"number": 13, "words": WORDS[13], **given, "ranges": ranges[::-1]}
        self.assertEqual(self.answers("sheet", self.operands[0], *self.operands[:0:-1], status=REFUSED), [refused])
        nothing = {"number": 12, "words": WORDS[12], **given, "range_count": 0, "ranges": []}
        self.assertEqual(self.answers("sheet", self.operands[0], status=REFUSED), [nothing])
