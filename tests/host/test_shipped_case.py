"""The shipped case has everything: a processor block, a process list that closes, a record with a time in the pagefile,
a page in the compressed store. Those of the 32-bit machines have what each of their profiles can answer."""
from cases import PAE, PAGE, PLAIN, SHIPPED, machine_case, make_case, sheet_of
from expected import shipped_answers
from library import Library
from program import ROOT, HostTest

MOST_BYTES = 65536


def with_bit(image, runs, physical, bit):
    """The image with a bit set in the entry at a physical address."""
    frames = [first + k for first, pages in runs for k in range(pages)]
    changed = bytearray(image)
    changed[frames.index(physical // PAGE) * PAGE + physical % PAGE + bit // 8] |= 1 << bit % 8
    return bytes(changed)


class ShippedCase(HostTest):
    def setUp(self):
        super().setUp()
        self.library = Library()
        self.case = [(SHIPPED / name).read_bytes() for name in ("sheet", "image", "pagefile")]

    def test_fits_the_small_program(self):
        self.assertLessEqual(sum(map(len, self.case)), MOST_BYTES)

    def test_one_processor_block(self):
        number, offset, entries = self.library.processor_block(self.case, 0)
        self.assertEqual((number, offset, entries), self.library.resolve(self.case, make_case.BLOCK))
        self.assertEqual(self.library.processor_block(self.case, offset + 1), (55, 0, 0))

    def test_block_is_found_whatever_directory_page_the_sheet_has(self):
        answer = self.library.processor_block(self.case, 0)
        for directory in (0, make_case.DIRECTORY - 1, 2**36 - 1):
            sheet = sheet_of(directory, make_case.RUNS)
            self.assertEqual(self.library.processor_block([sheet, *self.case[1:]], 0), answer)

    def test_process_list(self):
        self.assertGreaterEqual(len(make_case.NODES), 3)
        self.assertEqual(self.library.process_list(self.case, make_case.LIST_HEAD), (0, make_case.NODES))
        for process, cr3, number, name in make_case.PROCESSES:
            for place, content in (
                (make_case.DIRECTORY_TABLE_BASE, cr3.to_bytes(8, "little")),
                (make_case.UNIQUE_PROCESS_ID, number.to_bytes(8, "little")),
                (make_case.IMAGE_FILE_NAME, name),
            ):
                self.assertEqual(self.library.read(self.case, process + place, len(content)), (0, content, 0))

    def test_record_in_the_pagefile(self):
        content = make_case.record()
        number, offset, _ = self.library.resolve(self.case, make_case.RECORD)
        self.assertEqual((number, self.case[2][offset : offset + len(content)]), (2, content))
        self.assertEqual(self.library.read(self.case, make_case.RECORD, len(content)), (0, content, 0))
        ticks, moment = int.from_bytes(content[-8:], "little"), make_case.RECORD_TIME
        self.assertEqual(ticks, (moment.timestamp() + 11_644_473_600) * 10_000_000)
        address = make_case.RECORD + len(content) - 8
        self.assertEqual(self.library.read_time(self.case, address), (0, ticks / 10_000_000, 0))
        shown = f"glintloom time sheet image pagefile 0x{address:X}\n    0x{address:016X}   0 done, "
        shown += f"{ticks // 10_000_000} seconds, 0 ticks, {moment:%Y-%m-%d %H:%M:%S}.0000000 UTC\n"
        self.assertIn(shown, (ROOT / "README.md").read_text())

    def test_page_in_the_compressed_store(self):
        """Its entry is the record's but for bit 22; no byte of the pagefile is shown for it."""
        entries = dict(make_case.OURS)
        self.assertEqual(entries[0x257859A8] | 1 << 22, entries[0x25785A20])
        self.assertEqual(make_case.STORED % PAGE, make_case.RECORD % PAGE)
        for pagefile in (self.case[2], b"", bytes(PAGE)):
            case = [*self.case[:2], pagefile]
            self.assertEqual(self.library.resolve(case, make_case.STORED), (31, 0, 4))
            self.assertEqual(self.library.page(case, make_case.STORED), (0, 0, 0))
            self.assertEqual(self.library.read(case, make_case.STORED, 8), (31, b"", 0))

    def test_reserved_bits(self):
        """With a reserved bit an entry on the way is refused, in mode 0 and in mode 2; bits 12 and 63 of a large page are none."""
        pae = make_case.PAE
        pae_case = [pae.sheet(), pae.image(), pae.pagefile()]
        for case, runs, entry, bits, address, answer in (
            (self.case, make_case.RUNS, 0x323EF000, (7,), 0xB3A010, (33, 0, 1)),
            (self.case, make_case.RUNS, 0x31AC0010, range(13, 30), 0xA318E456, (33, 0, 2)),
            (self.case, make_case.RUNS, 0x07F84030, range(13, 21), 0xCC0123, (33, 0, 3)),
            (self.case, make_case.RUNS, 0x07F84030, range(13, 21), 0xC00000, (33, 0, 3)),
            (self.case, make_case.RUNS, 0x31AC0010, (12, 63), 0xA318E456, (1, 21590, 2)),
            (self.case, make_case.RUNS, 0x07F84030, (12, 63), 0xCC0123, (1, 41251, 3)),
            (pae_case, pae.runs, 0x07600838, (7,), 0xC2E61940, (33, 0, 1)),
            (pae_case, pae.runs, 0x0DA6B100, range(13, 21), 0xC4000838, (33, 0, 2)),
            (pae_case, pae.runs, 0x0DA6B100, (12, 63), 0xC4000838, (1, 6200, 2)),
        ):
            for bit in bits:
                damaged = [case[0], with_bit(case[1], runs, entry, bit), case[2]]
                self.assertEqual(self.library.resolve(damaged, address), answer, (hex(entry), bit))
                number, content = self.library.map(damaged, address // PAGE * PAGE, 1)
                self.assertEqual((number, self.library.lookup(content, address)), (0, answer[:2]))

    def test_record_without_the_pagefile(self):
        for pagefile in (b"", bytes(PAGE)):
            self.assertEqual(self.library.read([*self.case[:2], pagefile], make_case.RECORD, 8), (27, b"", 0))
            self.assertEqual(self.library.read_time([*self.case[:2], pagefile], make_case.RECORD + 16), (27, 0, 0))


class ShippedMachines(HostTest):
    def setUp(self):
        super().setUp()
        self.library = Library()

    def machines(self):
        """Each machine with the bytes of its case."""
        for name, machine in make_case.MACHINES.items():
            case = [path.read_bytes() for path in machine_case(name, self.directory).words()]
            self.assertLessEqual(sum(map(len, case)), MOST_BYTES // 2)
            yield machine, case

    def test_files_are_what_make_case_makes(self):
        for machine, case in self.machines():
            self.assertEqual(case, [machine.sheet(), machine.image(), machine.pagefile()])
            sheet = sheet_of(machine.directory, machine.runs, machine.mode, machine.place)
            self.assertEqual((case[0], self.library.write_sheet(machine.directory, machine.runs, machine.mode, machine.place)),
                             (sheet, (0, sheet)))

    def test_answers(self):
        met = {PLAIN: set(), PAE: set()}
        for machine, case in self.machines():
            for address, *answer in shipped_answers(machine.answers):
                self.assertEqual(self.library.resolve(case, address), tuple(answer), hex(address))
                met[machine.mode].add((answer[0], answer[2]))
        for mode, most in ((PLAIN, 2), (PAE, 3)):
            self.assertEqual({number for number, _ in met[mode]}, {1, 20, 21, 23, 24, 34})
            self.assertEqual(max(entries for _, entries in met[mode]), most)

    def test_worked_address(self):
        """Document 000's: its three entries at their places, frame 0x11DF3 at place 0x940."""
        machine, words = make_case.PAE, dict(make_case.PAE.words)
        self.assertEqual((machine.directory * PAGE + 32 * machine.place, machine.mode), (0x07600820, PAE))
        entries = [words[0x07600820 + 8 * 3], words[0x0DA6B000 + 8 * 0x17], words[0x073F1000 + 8 * 0x61]]
        self.assertEqual(entries, [0x0DA6B801, 0x073F1963, 0x11DF3921])
        self.assertEqual(words[0x073F1000 + 8 * 0x62], 0xE1B1151000000400)
        case = [machine.sheet(), machine.image(), machine.pagefile()]
        offset = machine.frames.index(0x11DF3) * PAGE + 0x940
        self.assertEqual(self.library.resolve(case, 0xC2E61940), (1, offset, 3))
        self.assertEqual(self.library.resolve(case, 0xC2E62000), (34, 0, 3))
        self.assertEqual(self.library.page(case, 0xC2E61940), (1, offset // PAGE * PAGE, PAGE))
        self.assertEqual(self.library.page(case, 0xC2E62000), (0, 0, 0))

    def test_record(self):
        for address, (machine, case) in zip((0x00400120, 0xC2E61940), self.machines()):
            self.assertEqual(self.library.read(case, address, len(make_case.TRIP)), (0, make_case.TRIP, 0))
            ticks = int.from_bytes(make_case.TRIP[16:], "little")
            self.assertEqual(self.library.read_time(case, address + 16), (0, ticks / 10_000_000, 0))

    def test_no_page_comes_from_the_pagefile(self):
        for machine, case in self.machines():
            for address, *answer in shipped_answers(machine.answers):
                for pagefile in (b"", bytes(PAGE)):
                    self.assertEqual(self.library.resolve([*case[:2], pagefile], address), tuple(answer))
