"""What README and the manual page show: the example's output, commands on the cases of 32-bit machines, and two sheets and a
map byte by byte."""
import re
import shlex
import subprocess

from cases import MACHINE_IMAGE, MACHINE_RUNS, PAGE, VALID, Memory, make_case, sheet_of
from expected import faulty_number
from library import Library
from program import ANSWERED, BUILT, REFUSED, ROOT, HostTest, Program, run

README = (ROOT / "README.md").read_text()
MANUAL = (ROOT / "host" / "glintloom.1").read_text()

DIRECTORY_PAGE = 0x187
BYTES = r"(?:[0-9A-F]{2} )*[0-9A-F]{2}"


def section(text, heading, next_heading):
    return text.split(f"\n{heading}\n")[1].split(f"\n{next_heading}")[0]


class Example(HostTest):
    def test_output(self):
        """It runs the normal build whatever build is under test."""
        if Program.path != BUILT / "glintloom":
            self.skipTest("the example has its own build")
        shown = re.findall(r"^    (.*)$", section(README, "## The main job", "## "), re.M)
        printed = subprocess.run([ROOT / "example"], capture_output=True, text=True, check=True).stdout
        self.assertEqual(["./example", *printed.splitlines()], shown)
        self.assertEqual(printed.count("$ glintloom "), 7)


class Machines(HostTest):
    def test_commands_on_the_shipped_machines(self):
        """Each command with the lines that it prints, and one at least for each machine."""
        text = section(README, "## 32-bit machines", "## ")
        shown, named = re.findall(r"^    \$ glintloom (.*)\n((?:    [^$\n].*\n)*)", text, re.M), set()
        for command, lines in shown:
            words = shlex.split(command)
            named.add(words[1])
            printed = run(*words, cwd=ROOT)
            self.assertEqual((printed.stdout.decode(), printed.stderr), (re.sub("^    ", "", lines, flags=re.M), b""))
            self.assertEqual(printed.returncode, REFUSED if " refused: " in lines else ANSWERED)
        self.assertEqual(named, {f"cases/{name}" for name in make_case.MACHINES})


class ByteByByte(HostTest):
    def shown(self, in_readme, in_manual):
        """The bytes as a whole and by their fields, in README and in the manual page."""
        readme, manual = section(README, f"## {in_readme}", "## "), section(MANUAL, f".SH {in_manual}", ".SH ")
        for text, rows in ((readme, rf"^\| `({BYTES})` \|"), (manual, rf"^    ({BYTES})  +\S")):
            whole = re.search(rf"^    ({BYTES})$", text, re.M)[1]
            yield bytes.fromhex(whole), [bytes.fromhex(row) for row in re.findall(rows, text, re.M)]

    def has_fields(self, whole, parts, numbers):
        self.assertEqual(len(parts), len(numbers))
        for part, number in zip(parts, numbers):
            self.assertEqual(sum((byte & 0x7F) << 7 * place for place, byte in enumerate(part)), number)
        self.assertEqual(b"".join(parts), whole)

    def test_sheet(self):
        for whole, parts in self.shown("The case sheet", "CASE SHEET"):
            self.assertEqual(whole, sheet_of(DIRECTORY_PAGE, MACHINE_RUNS))
            (first, pages), (second, more_pages) = MACHINE_RUNS
            numbers = (1, DIRECTORY_PAGE, len(MACHINE_RUNS), first, pages, second - first - pages, more_pages)
            self.has_fields(whole, parts, numbers)
        for text in (README, MANUAL):
            self.assertIn(f"(0x9E + 0x3FEF0) * 4,096 = 0x{MACHINE_IMAGE:X} bytes", text)

    def test_sheet_of_a_32_bit_machine(self):
        machine = make_case.PAE
        gaps = [frame - before for frame, before in zip(machine.frames, (0, *(frame + 1 for frame in machine.frames)))]
        lengths_too = [number for gap in gaps for number in (gap, 1)]
        for whole, parts in self.shown("32-bit machines", "32\\-BIT MACHINES"):
            self.assertEqual(whole, (make_case.CASES / "pae" / "sheet").read_bytes())
            self.has_fields(whole, parts, (2, 0x7600, 2, 65, len(machine.frames), *lengths_too))

    def test_commands_that_write_a_sheet(self):
        machine = sheet_of(DIRECTORY_PAGE, MACHINE_RUNS)
        for text, command, written in (
            (README, r"^    glintloom (sheet 0x.* -o sheet)$", machine),
            (MANUAL, r"^glintloom (sheet 0x.* \\-o sheet)$", machine),
            (README, r"^    glintloom (sheet --pae .* -o sheet)$", make_case.PAE.sheet()),
            (MANUAL, r"^glintloom (sheet \\-\\-pae .* \\-o sheet)$", sheet_of(0x7600, [(1, 0x9E), (0x100, 0x1FEF0)], 2, 65)),
        ):
            words = re.search(command, text, re.M)[1].replace("\\", "").split()
            self.assertEqual(run(*words, cwd=self.directory).returncode, ANSWERED)
            self.assertEqual((self.directory / "sheet").read_bytes(), written)
            (self.directory / "sheet").unlink()

    def test_sheet_with_a_number_at_fault(self):
        """The run count with a group more; the image does not matter."""
        sheet = sheet_of(DIRECTORY_PAGE, MACHINE_RUNS).replace(b"\x03\x02", b"\x03\x82\x00")
        lines = faulty_number("case", 18, sheet, 3)
        self.assertIn("".join(f"\n    {line}" for line in lines), README)
        path = self.write("sheet", sheet)
        self.says(["resolve", path, path, "--no-pagefile"], REFUSED, lines)

    def test_map(self):
        """The map call makes these bytes of a case with two pages at 0xB10000 that are image pages 5 and 6."""
        memory = Memory(8)
        for address, image_page in ((0xB10000, 5), (0xB11000, 6)):
            memory.set_entry(address, (image_page + 1) * PAGE | VALID)
        case = [path.read_bytes() for path in memory.write(self.directory).words()]
        number, made = Library().map(case, 0xB10000, 3)
        for whole, parts in self.shown("Maps", "MAPS"):
            self.assertEqual((number, made), (0, whole))
            self.assertEqual(list(map(len, parts)), [1, 2, 1, 3, 2])
            self.assertEqual(b"".join(parts), whole)
