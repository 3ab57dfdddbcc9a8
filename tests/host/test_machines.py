"""Every verb on the cases of the two 32-bit machines: what is found, 34, 37 and the end at 2^32, in lines and in JSON."""
from cases import PAGE, machine_case, make_case, sheet_of
from expected import WORDS, done, dump, fault, first_at, place, shipped_answers, shipped_lines, stretch, time_line
from library import Library
from program import ANSWERED, REFUSED, HostTest, run

NOT_FOLLOWED, NOT_SERVED = 34, 37
TOP = 2**32

# By machine: the record's address and offset with the entries read, and the first of the pages that are mapped, with the
# map's bytes of 8 pages from there on.
RECORDS = {"plain": (0x00401120, 0x2120, 2), "pae": (0xC2E65940, 0x3940, 3)}
MAPPED = {
    "plain": (0x00400000, "01 80 08 08 01 01 02 01 01 02 22 02 01 01 02 17 01 22 02"),
    "pae": (0xC2E61000, "01 E1 DC 30 08 01 01 03 22 03 01 01 03 22 01 18 01 22 01"),
}


class MachineTest(HostTest):
    def machines(self):
        for name, machine in make_case.MACHINES.items():
            yield name, machine, machine_case(name, self.directory).words()


class Places(MachineTest):
    def test_resolve(self):
        for _, machine, case in self.machines():
            addresses = [f"0x{address:X}" for address, _, _ in machine.answers]
            self.says(["resolve", *case, *addresses], REFUSED, shipped_lines(machine.answers))
            self.says(["resolve", self.directory, "--no-pagefile", *addresses], REFUSED, shipped_lines(machine.answers))
            shown = self.answers("resolve", *case, *addresses, status=REFUSED)
            numbers = [(one["number"], int(one["offset"], 16), one["entries"]) for one in shown]
            self.assertEqual(numbers, [answer[1:] for answer in shipped_answers(machine.answers)])

    def test_not_followed(self):
        """No byte is shown and no file is made for it."""
        out = self.directory / "out"
        for _, machine, case in self.machines():
            entries = machine.mode + 1
            refused = [answer[0] for answer in shipped_answers(machine.answers) if answer[1] == NOT_FOLLOWED]
            self.assertGreaterEqual(len(refused), 3)
            for address in map(hex, refused):
                line = place(int(address, 16), NOT_FOLLOWED)
                self.says(["page", *case, address], REFUSED, [place(int(address, 16), NOT_FOLLOWED, 0, entries)])
                self.says(["read", *case, address, "1", "-o", out], REFUSED, [line + first_at(int(address, 16))])
                self.says(["time", *case, address], REFUSED, [line])
                (shown,) = self.answers("page", *case, address, status=REFUSED)
                expected = {"number": NOT_FOLLOWED, "words": WORDS[NOT_FOLLOWED], "offset": "0x0", "entries": entries}
                self.assertEqual(shown, {"address": f"0x{int(address, 16):X}", **expected})
        self.assertFalse(out.exists())

    def test_read_page_and_time(self):
        for name, machine, case in self.machines():
            address, offset, entries = RECORDS[name]
            record, page = make_case.TRIP, machine.image()[offset // PAGE * PAGE :][:PAGE]
            lines = [done(address, "0x18 bytes"), stretch(address, 1, offset, 0x18), *dump(address, record)]
            self.says(["read", *case, f"0x{address:X}", "0x18"], ANSWERED, lines)
            start = address // PAGE * PAGE
            lines = [place(start, 1, offset // PAGE * PAGE, entries), *dump(start, page)]
            self.says(["page", *case, f"0x{address:X}"], ANSWERED, lines)
            seconds, ticks = divmod(int.from_bytes(record[16:], "little"), 10_000_000)
            self.says(["time", *case, f"0x{address + 16:X}"], ANSWERED, [time_line(address + 16, 0, seconds, ticks)])


class Top(MachineTest):
    """Addresses end at 2^32; the last page is mapped for it."""

    def case(self, machine):
        """The machine with its last page led to the frame of the record, by the last entry of each table on the way."""
        size, per_table = (4, 1024) if machine.mode == 1 else (8, 512)
        table, frame = {1: (0x1A2, 0x1B3), 2: (0x73F1, 0x11DF3)}[machine.mode]
        upper = machine.directory if machine.mode == 1 else 0xDA6B
        entries = [(upper * PAGE + size * (per_table - 1), table), (table * PAGE + size * (per_table - 1), frame)]
        words = [*machine.words, *((physical, to * PAGE | 0x63) for physical, to in entries)]
        changed = machine._replace(words=words)
        for name in ("sheet", "image", "pagefile"):
            self.write(name, getattr(changed, name)())
        return [self.directory / name for name in ("sheet", "image", "pagefile")]

    def test_read_and_time_meet_it(self):
        for machine in make_case.MACHINES.values():
            case, offset = self.case(machine), machine.image().index(make_case.TRIP) // PAGE * PAGE
            line = stretch(TOP - 8, 1, offset + PAGE - 8, 8)
            self.says(["read", *case, hex(TOP - 8), "8"], ANSWERED, [done(TOP - 8, "0x8 bytes"), line, *dump(TOP - 8, bytes(8))])
            for length in ("9", "0xFFFFFFFFFFFFFFFF"):
                self.says(["read", *case, hex(TOP - 8), length], REFUSED, [place(TOP - 8, 20) + first_at(TOP)])
            self.says(["read", *case, hex(TOP), "1"], REFUSED, [place(TOP, 20) + first_at(TOP)])
            self.says(["time", *case, hex(TOP - 8), hex(TOP - 7)], REFUSED, [place(TOP - 8, 60), place(TOP - 7, 20)])

    def test_maps_end_there(self):
        for machine in make_case.MACHINES.values():
            case, page = self.case(machine), machine.image().index(make_case.TRIP) // PAGE
            content = b"".join(map(make_case.groups, (1, TOP // PAGE - 1, 1, 1, 1, page)))
            self.says(["map", *case, hex(TOP - PAGE), "1"], ANSWERED, [done(TOP - PAGE, "0x8 bytes"), *dump(0, content)])
            for start, pages in ((TOP - PAGE, 2), (TOP, 1), (0, TOP // PAGE + 1), (0, 0), (1, 1), (TOP - 2 * PAGE, 2**64 - 1)):
                self.says(["map", *case, hex(start), hex(pages)], REFUSED, [place(start, 40)])
            shown = run("map", *case, "0", TOP // PAGE, "-o", self.directory / "map")
            self.assertEqual((shown.returncode, shown.stderr), (ANSWERED, b""))
            lines = [place(TOP - 1, 1, page * PAGE + PAGE - 1), place(TOP, 41), place(2**47, 20)]
            self.says(["lookup", self.directory / "map", hex(TOP - 1), hex(TOP), hex(2**47)], REFUSED, lines)


class Maps(MachineTest):
    def test_code_34(self):
        for name, machine, case in self.machines():
            start, content = MAPPED[name][0], bytes.fromhex(MAPPED[name][1])
            lines = [done(start, f"0x{len(content):X} bytes"), *dump(0, content)]
            self.says(["map", *case, hex(start), "8"], ANSWERED, lines)
            path = self.write("map", content)
            answers = [one for one in shipped_answers(machine.answers) if start <= one[0] < start + 8 * PAGE]
            self.assertIn(NOT_FOLLOWED, [answer[1] for answer in answers])
            self.says(["lookup", path, *(hex(one[0]) for one in answers)], REFUSED, [place(*one[:3]) for one in answers])


class NotServed(MachineTest):
    def test_processor_block(self):
        for _, _, case in self.machines():
            for words, start in (([], 0), (["--all"], 0), (["0x1000"], 0x1000), ([hex(2**64 - 1)], 2**64 - 1)):
                self.says(["processor-block", *case, *words], REFUSED, [fault("image", NOT_SERVED, f", from 0x{start:X}")])
            shown = self.answers("processor-block", *case, status=REFUSED)
            self.assertEqual(shown, [{"number": NOT_SERVED, "words": WORDS[NOT_SERVED], "from": "0x0"}])

    def test_list(self):
        for _, _, case in self.machines():
            for head in (0, 1, 0xC2E61940, 2**64 - 1):
                self.says(["list", *case, hex(head)], REFUSED, [place(head, NOT_SERVED)])
            shown = self.answers("list", *case, "0x80000000", status=REFUSED)
            self.assertEqual(shown, [{"head": "0x80000000", "number": NOT_SERVED, "words": WORDS[NOT_SERVED]}])

    def test_behind_the_faults_of_the_case(self):
        for _, machine, (sheet, image, pagefile) in self.machines():
            for case, line in (
                ((sheet, sheet, pagefile), fault("case", 15, ", the sheet asks for 0x4000 bytes, the image has "
                                                 f"0x{len(machine.sheet()):X} bytes")),
                ((sheet, image, sheet), fault("case", 16, f", the pagefile has 0x{len(machine.sheet()):X} bytes")),
            ):
                self.says(["list", *case, "1"], REFUSED, [line])
                self.says(["processor-block", *case], REFUSED, [line])

    def test_every_call(self):
        library = Library()
        for _, machine, _ in self.machines():
            case = [machine.sheet(), machine.image(), machine.pagefile()]
            self.assertEqual(library.processor_block(case, 0), (NOT_SERVED, 0, 0))
            self.assertEqual(library.process_list(case, 1), (NOT_SERVED, []))
            edition_1 = [sheet_of(machine.directory, machine.runs), *case[1:]]
            self.assertEqual(library.processor_block(edition_1, 0), (55, 0, 0))
            self.assertEqual(library.process_list(edition_1, 1), (50, []))


class Explained(HostTest):
    def test_explain(self):
        for number, word in ((NOT_FOLLOWED, "transition"), (NOT_SERVED, "64-bit Windows")):
            first, *rest = run("explain", number).stdout.decode().splitlines()
            self.assertEqual(first, f"{number} {WORDS[number]}")
            text = " ".join(line.strip() for line in rest)
            self.assertIn(word, text)
            self.assertEqual(self.answers("explain", number), [{"number": number, "words": WORDS[number], "explanation": text}])
