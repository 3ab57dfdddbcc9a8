"""Every verb: what it prints for answers and for refusals."""
import random
import re

from cases import BLOCK_PLACES, PAGE, RING_PAGES, SHIPPED, Memory, make_case
from cases import block_case, large_page_case, list_case, printed_machine, ring_case, sheet_of, shipped_case
from expected import REFUSALS, SHIPPED_MAP, WORDS, block, done, dump, fault, faulty_number, first_at, no_block, place, stretch
from expected import shipped_answers, shipped_lines
from program import ANSWERED, REFUSED, HostTest, run, with_little_memory


class Resolve(HostTest):
    def setUp(self):
        super().setUp()
        self.case = shipped_case(self.directory).words()

    def test_shipped_case_is_what_make_case_makes(self):
        for name in ("sheet", "image", "pagefile"):
            self.assertEqual((SHIPPED / name).read_bytes(), getattr(make_case, name)())

    def test_every_shipped_address(self):
        addresses = [hex(answer[0]) for answer in shipped_answers()]
        self.says(["resolve", *self.case, *addresses], REFUSED, shipped_lines())

    def test_each_alone_with_its_status(self):
        for answer, line in zip(shipped_answers(), shipped_lines()):
            self.says(["resolve", *self.case, answer[0]], REFUSED if answer[1] >= 10 else ANSWERED, [line])

    def test_addresses_from_input(self):
        text = "".join(f"{answer[0]:#x}\n" for answer in shipped_answers())
        self.says(["resolve", *self.case], REFUSED, shipped_lines(), input=text.encode())

    def test_forms_of_numbers(self):
        words = ["0xb35fff", "0XB35FFF", "11755519", "0x0000000000B35FFF", "0x0000000000000000B35FFF"]
        words += ["0000000000B35FFF", "0000000000b35fff", "00000000`00b35fff", "0`00B35FFF", "0x00000000`00b35fff"]
        lines = [place(0xB35FFF, 2, 0x1FFF, 4)] * len(words)
        self.says(["resolve", *self.case, *words], ANSWERED, lines)
        for blanks in ("", " " * 500):
            text = f" \t{blanks}" + f"\t \r{blanks}\n\n  \n".join(words)
            self.says(["resolve", *self.case], ANSWERED, lines, input=text.encode())

    def test_ends_of_64_bits(self):
        words = ["0", "0xFFFFFFFFFFFFFFFF", "18446744073709551615"]
        lines = [place(0, 22, 0, 4)] + [place(2**64 - 1, 21, 0, 1)] * 2
        self.says(["resolve", *self.case, *words], REFUSED, lines)

    def test_no_address_on_input(self):
        self.says(["resolve", *self.case], ANSWERED, [], input=b"")
        self.says(["resolve", *self.case], ANSWERED, [], input=b"\n\n")

    def test_without_pagefile(self):
        lines = [place(0xB35000, 27, 0, 4), place(0xB37008, 1, 0x5008, 4)]
        self.says(["resolve", *self.case[:2], "--no-pagefile", "0xB35000", "0xB37008"], REFUSED, lines)
        empty = self.write("empty", b"")
        self.says(["resolve", *self.case[:2], empty, "0xB35000", "0xB37008"], REFUSED, lines)

    def test_options_may_stand_anywhere(self):
        self.says(["resolve", "--no-pagefile", *self.case[:2], "0xB37008"], ANSWERED, [place(0xB37008, 1, 0x5008, 4)])
        dashed = self.write("-image", self.case[1].read_bytes())
        words = ["resolve", "--no-pagefile", "--", self.case[0], dashed.name, "0xB37008"]
        self.says(words, ANSWERED, [place(0xB37008, 1, 0x5008, 4)], cwd=self.directory)

    def test_refused_cases(self):
        """Told once and as the case's, whether there are addresses or not."""
        sheet, image, pagefile = self.case
        empty, longer = self.write("empty", b""), self.write("longer", pagefile.read_bytes() + b"x")
        for case, line in (
            ((empty, image, pagefile), fault("case", 10)),
            ((sheet, empty, pagefile), fault("case", 15, ", the sheet asks for 0xD000 bytes, the image has 0x0 bytes")),
            ((sheet, image, longer), fault("case", 16, ", the pagefile has 0x2001 bytes")),
            ((empty, empty, empty), fault("case", 10)),
        ):
            self.says(["resolve", *case], REFUSED, [line])
            self.says(["resolve", *case, "0xB35000", "0x800000000000"], REFUSED, [line])

    def test_refused_case_for_every_verb(self):
        case, out = [self.case[0], self.case[2], self.case[2]], self.directory / "out"
        for verb, *numbers in (
            ["page"],
            ["page", "0xB35000", "-o", out],
            ["read", "0xB35000", "0xFFFFFFFFFFFFFFFF"],
            ["read", "0xB35000", "0", "-o", out],
            ["time"],
            ["time", "0xB35110"],
            ["map", "0xB35001", "0", "-o", out],
            ["processor-block", "--all"],
            ["list", "0xB35001"],
        ):
            self.says([verb, *case, *numbers], REFUSED, [fault("case", 15, ", the sheet asks for 0xD000 bytes, the image has 0x2000 bytes")])
        self.assertFalse(out.exists())


class PageAndRead(HostTest):
    def setUp(self):
        super().setUp()
        self.files = shipped_case(self.directory)
        self.case = self.files.words()
        self.image_page = self.files.image.read_bytes()[5 * PAGE : 6 * PAGE]

    def test_page_of_image_and_pagefile(self):
        lines = [place(0x777B0000, 1, 0x5000, 9)] + dump(0x777B0000, self.image_page)
        self.says(["page", *self.case, "0x777B0123"], ANSWERED, lines)
        content = self.files.pagefile.read_bytes()[PAGE:]
        self.says(["page", *self.case, "0xB35FFF"], ANSWERED, [place(0xB35000, 2, 0x1000, 4)] + dump(0xB35000, content))

    def test_page_of_zeros_is_marked(self):
        self.says(["page", *self.case, "0xB38001"], ANSWERED, [place(0xB38000, 3, 0, 4)] + dump(0xB38000, bytes(PAGE)))

    def test_refused_page_prints_no_byte(self):
        for address, number, entries in ((0x1D0000, 22, 4), (0xB10000, 25, 9), (0x800000000000, 20, 0)):
            self.says(["page", *self.case, address], REFUSED, [place(address, number, 0, entries)])

    def test_pages_from_input(self):
        lines = [place(0xB38000, 3, 0, 4)] + dump(0xB38000, bytes(PAGE)) + [place(0x1D0000, 22, 0, 4)]
        self.says(["page", *self.case], REFUSED, lines, input=b"0xB38001\n0x1D0000\n")

    def test_read_in_one_page(self):
        lines = [done(0x777B0000, "0x80 bytes"), stretch(0x777B0000, 1, 0x5000, 0x80)] + dump(0x777B0000, make_case.MZ[:128])
        self.says(["read", *self.case, "0x777B0000", "128"], ANSWERED, lines)

    def test_read_of_an_odd_part(self):
        lines = [done(0x777B004E, "0x27 bytes"), stretch(0x777B004E, 1, 0x504E, 0x27)]
        lines += dump(0x777B004E, make_case.MZ[0x4E:0x75])
        self.says(["read", *self.case, "0x777B004E", "0x27"], ANSWERED, lines)
        lines = [done(0x777B0000, "0x1 byte"), stretch(0x777B0000, 1, 0x5000, 0x1)] + dump(0x777B0000, b"M")
        self.says(["read", *self.case, "0x777B0000", "1"], ANSWERED, lines)

    def test_read_of_every_byte_value(self):
        memory, content = Memory(8), bytes(range(256))
        offset = memory.map_page(0x5000)
        memory.bytes[offset : offset + 256] = content
        case = memory.write(self.directory).words()
        lines = [done(0x5000, "0x100 bytes"), stretch(0x5000, 1, offset, 0x100)] + dump(0x5000, content)
        self.says(["read", *case, "0x5000", "256"], ANSWERED, lines)

    def test_read_over_pages_marks_those_of_zeros(self):
        lines = [done(0xB37FF8, "0xC bytes"), stretch(0xB37FF8, 1, 0x5FF8, 8)] + dump(0xB37FF8, bytes(8))
        lines += [stretch(0xB38000, 3, 0, 4)] + dump(0xB38000, bytes(4))
        self.says(["read", *self.case, "0xB37FF8", "12"], ANSWERED, lines)

    def test_read_to_the_last_byte_of_a_page(self):
        lines = [done(0xB38FF0, "0x10 bytes"), stretch(0xB38FF0, 3, 0, 0x10)] + dump(0xB38FF0, bytes(16))
        self.says(["read", *self.case, "0xB38FF0", "16"], ANSWERED, lines)

    def refuses(self, address, length, line):
        self.says(["read", *self.case, address, length], REFUSED, [line])

    def test_refused_read_prints_no_byte(self):
        self.refuses("0xB38FF0", "17", place(0xB38FF0, 22) + first_at(0xB39000))
        self.refuses("0xB37FFF", "0x2000", place(0xB37FFF, 22) + first_at(0xB39000))
        self.refuses("0x1D0123", "1", place(0x1D0123, 22) + first_at(0x1D0123))
        self.refuses("0x800000000000", "1", place(0x800000000000, 20) + first_at(0x800000000000))

    def test_read_past_the_top_has_no_refused_address(self):
        memory = Memory(8)
        memory.map_page(2**64 - PAGE)
        case = memory.write(self.directory).words()
        self.says(["read", *case, 2**64 - 1, "2"], REFUSED, [place(2**64 - 1, 20)])

    def test_read_of_a_refused_case_has_no_refused_address(self):
        self.says(["read", self.case[1], *self.case[1:], "0x777B0000", "1"], REFUSED, [fault("case", 12)])

    def test_read_of_nothing(self):
        self.says(["read", *self.case, "0x800000000000", "0"], ANSWERED, [done(0x800000000000, "0x0 bytes")])

    def test_huge_read_is_refused_at_its_first_refused_byte(self):
        for length in ("0xFFFFFFFFFFFFFFFF", "0x7FFFFFFFFFFFFFFF"):
            self.refuses("0x777B0000", length, place(0x777B0000, 22) + first_at(0x777B1000))
            self.refuses("0x1D0123", length, place(0x1D0123, 22) + first_at(0x1D0123))
            self.refuses("0x800000000000", length, place(0x800000000000, 20) + first_at(0x800000000000))
            self.says(["read", self.case[1], *self.case[1:], "0x777B0000", length], REFUSED, [fault("case", 12)])

    def test_read_longer_than_memory(self):
        """Refused far behind its start without memory; not refused, it lacks memory."""
        length = 64 << 20
        case = large_page_case(self.directory, length // PAGE).words()
        line, how, out = place(0, 23) + first_at(length), with_little_memory(length), self.directory / "out"
        self.says(["read", *case, 0, "0xFFFFFFFFFFFFFFFF"], REFUSED, [line], **how)
        self.fails(["read", *case, 0, length], "not enough memory", **how)
        self.fails(["read", *case, 0, length, "-o", out], "not enough memory", **how)
        self.assertFalse(out.exists())

    def stretches_case(self, start):
        """Pages of the image, of zeros and of the pagefile; gives the stretches as (address, number, offset, bytes)."""
        memory, (zeros, in_pagefile) = Memory(16), (0x80, lambda page: page << 32 | 0x80)
        memory.map_page(start + 9 * PAGE)
        first, *_ = (memory.map_page(start + k * PAGE) for k in range(3))
        entries = [zeros, zeros, in_pagefile(1), in_pagefile(2), in_pagefile(4), in_pagefile(3)]
        for k, entry in enumerate(entries, 3):
            memory.set_entry(start + k * PAGE, entry)
        memory.bytes[first : first + 3 * PAGE] = random.Random(1).randbytes(3 * PAGE)
        pagefile = random.Random(2).randbytes(5 * PAGE)
        image = bytes(memory.bytes)
        return memory.write(self.directory, pagefile).words(), [
            (start, 1, first, image[first : first + 3 * PAGE]),
            (start + 3 * PAGE, 3, 0, bytes(2 * PAGE)),
            (start + 5 * PAGE, 2, PAGE, pagefile[PAGE : 3 * PAGE]),
            (start + 7 * PAGE, 2, 4 * PAGE, pagefile[4 * PAGE :]),
            (start + 8 * PAGE, 2, 3 * PAGE, pagefile[3 * PAGE : 4 * PAGE]),
        ]

    def test_read_by_stretches(self):
        """Pages that follow each other in a file are one stretch, as pages of zeros are; others are not."""
        start = 0x40000000
        case, stretches = self.stretches_case(start)
        lines = [[stretch(address, number, offset, len(content))] for address, number, offset, content in stretches]
        dumps = [dump(address, content) for address, _, _, content in stretches]
        first, content = done(start, "0x9000 bytes"), b"".join(content for *_, content in stretches)
        self.says(["read", *case, start, "0x9000"], ANSWERED, sum((a + b for a, b in zip(lines, dumps)), [first]))
        shown = run("read", *case, start, "0x9000", "-o", self.directory / "out")
        self.assertEqual(shown.stdout.decode().splitlines(), sum(lines, [first]))
        self.assertEqual(shown.stderr.decode(), f"glintloom: 0x{start + 3 * PAGE:016X}: {WORDS[3]}, 0x2000 bytes\n")
        self.assertEqual((self.directory / "out").read_bytes(), content)

    def test_long_read_into_a_file(self):
        length = 64 << 20
        case = large_page_case(self.directory, length // PAGE).words()
        lines = [done(0, f"0x{length:X} bytes"), stretch(0, 1, 0, length)]
        self.says(["read", *case, 0, length, "-o", "/dev/null"], ANSWERED, lines)


class MapAndLookup(HostTest):
    def setUp(self):
        super().setUp()
        self.case = shipped_case(self.directory).words()

    def test_map_in_lines(self):
        lines = [done(0xB34000, "0x29 bytes")] + dump(0, SHIPPED_MAP)
        self.says(["map", *self.case, "0xB34000", "18"], ANSWERED, lines)

    def test_lookup_answers_as_resolve(self):
        path = self.write("map", SHIPPED_MAP)
        answers = [answer for answer in shipped_answers() if 0xB34000 <= answer[0] < 0xB46000]
        self.assertGreater(len(answers), 10)
        addresses = [answer[0] for answer in answers]
        self.says(["lookup", path, *addresses], REFUSED, [place(*answer[:3]) for answer in answers])
        text = "".join(f"{address}\n" for address in addresses)
        self.says(["lookup", path], REFUSED, [place(*answer[:3]) for answer in answers], input=text.encode())

    def test_lookup_refusals(self):
        path = self.write("map", SHIPPED_MAP)
        lines = [place(0xB46000, 41), place(0x800000000000, 20)]
        self.says(["lookup", path, "0xB46000", "0x800000000000"], REFUSED, lines)
        for content, number in (
            (b"", 10),
            (SHIPPED_MAP[:-1], 10),
            (b"\x02", 12),
            (SHIPPED_MAP + b"\0", 14),
            (b"\1\0\1\4", 43),
            (b"\1\0\1\x20", 43),
        ):
            for addresses in ([], ["0xB34000"], ["0xB34000", "0x800000000000"]):
                self.says(["lookup", self.write("map", content), *addresses], REFUSED, [fault("map", number)])

    def test_paper_map(self):
        path = self.write("map", bytes.fromhex("01901603010205 1601"))
        self.says(["lookup", path, "0xB11ABC", "0xB12000"], REFUSED, [place(0xB11ABC, 1, 0x6ABC), place(0xB12000, 22)])

    def test_refused_ranges(self):
        past_a_half = (0x7FFFFFFFF000, 2), (0x800000000000, 1)
        for start, pages in ((0xB34001, 1), (0xB34000, 0), (0, RING_PAGES + 1), (0, 2**64 - 1), *past_a_half):
            self.says(["map", *self.case, start, pages], REFUSED, [place(start, 40)])

    def test_longest_range(self):
        files, expected = ring_case(self.directory)
        out = self.directory / "map"
        lines = [done(0, f"0x{len(expected):X} bytes")]
        self.says(["map", *files.words(), "0", RING_PAGES, "-o", out], ANSWERED, lines)
        self.assertEqual(out.read_bytes(), expected)


class BlocksAndLists(HostTest):
    def setUp(self):
        super().setUp()
        self.files, offsets = block_case(self.directory)
        self.case, (self.first, self.second) = self.files.words(), offsets
        addresses = [page + place_in_page for page, place_in_page in BLOCK_PLACES]
        self.lines = [block(offset, address, 1, 4) for offset, address in zip(offsets, addresses)]

    def test_processor_block(self):
        self.says(["processor-block", *self.case], ANSWERED, self.lines[:1])
        self.says(["processor-block", *self.case, self.first], ANSWERED, self.lines[:1])
        self.says(["processor-block", *self.case, self.first + 1], ANSWERED, self.lines[1:])
        for start in (self.second + 1, 2**64 - 1):
            self.says(["processor-block", *self.case, start], REFUSED, [no_block(start)])

    def test_all_processor_blocks(self):
        self.says(["processor-block", "--all", *self.case], ANSWERED, self.lines)
        self.says(["processor-block", "--all", *self.case, self.second + 1], REFUSED, [no_block(self.second + 1)])

    def test_a_sheet_from_a_block(self):
        """The directory page is not known: any will do to find the block, whose columns then make the sheet."""
        runs = [(1, len(self.files.image.read_bytes()) // PAGE)]
        self.files.sheet.write_bytes(sheet_of(0x999, runs))
        self.says(["resolve", *self.case, "0xFFFFF80002000100"], REFUSED, [place(0xFFFFF80002000100, 23, 0, 0)])
        found = run("processor-block", *self.case).stdout.decode()
        columns = re.fullmatch(r"(0x\w{16}) .*, Self (0x\w{16}), directory page (0x\w{9}), CR3 (0x\w{16}), .*\n", found)
        offset, address, directory, cr3 = (int(column, 16) for column in columns.groups())
        self.assertEqual((offset, cr3), (self.first, directory * PAGE))
        self.files.sheet.write_bytes(sheet_of(directory, runs))
        self.says(["resolve", *self.case, address], ANSWERED, [place(address, 1, offset, 4)])

    def test_list(self):
        for nodes in (0, 1, 2, 300, 4096):
            files, (head, *rest) = list_case(self.directory, nodes)
            count = f"{nodes} node" + ("" if nodes == 1 else "s")
            lines = [done(head, count)] + [f"0x{node:016X}" for node in rest]
            self.says(["list", *files.words(), head], ANSWERED, lines)

    def test_refused_lists(self):
        files, (head, *_) = list_case(self.directory, 4097)
        case = files.words()
        self.says(["list", *case, head], REFUSED, [place(head, 52)])
        self.says(["list", *case, head + 4], REFUSED, [place(head + 4, 50)])
        self.says(["list", *case, head + 8], REFUSED, [place(head + 8, 51)])
        self.says(["list", *case, "0x1000"], REFUSED, [place(0x1000, 21)])
        files.sheet.write_bytes(b"\x80\x00")
        self.says(["list", *case, head], REFUSED, faulty_number("case", 18, b"\x80\x00", 0))


class ExplainAndHelp(HostTest):
    def test_every_number(self):
        self.says(["explain"], ANSWERED, [f"{number:2} {words}" for number, words in WORDS.items()])
        explained = [run("explain", number).stdout for number in WORDS]
        self.assertEqual(run("explain", *WORDS).stdout, b"".join(explained))
        self.assertEqual(run("explain", "0x16").stdout, run("explain", "22").stdout)

    def test_every_number_is_explained(self):
        """Below its words, two or three sentences of its own in lines of whole words; in JSON the same text."""
        texts = set()
        for number, words in WORDS.items():
            first, *rest = run("explain", number).stdout.decode().splitlines()
            self.assertEqual(first, f"{number:2} {words}")
            for line in rest:
                self.assertRegex(line, r"\A   \S.{,95}\S\Z")
            text = " ".join(line.strip() for line in rest)
            self.assertRegex(text, r"\A([A-Z][^.]*\.( |\Z)){2,3}\Z")
            shown = self.answers("explain", number)
            self.assertEqual(shown, [{"number": number, "words": words, "explanation": text}])
            texts.add(text)
        self.assertEqual(len(texts), len(WORDS))

    def test_numbers_that_no_answer_has(self):
        for number in (4, 9, 19, 30, 32, 42, 46, 54, 56, 59, 62, 99, 2**32 + 22, 2**64 - 1):
            self.fails(["explain", number], f"no answer has the number {number}")
        self.fails(["explain", 22, 99], "99")

    def test_help(self):
        for word in ("help", "--help", "-h"):
            shown = run(word)
            self.assertEqual((shown.returncode, shown.stderr), (ANSWERED, b""))
            verbs = ("sheet", "case", "resolve", "page", "read", "time", "map", "lookup", "processor-block", "list", "pool")
            for verb in (*verbs, "explain", "help"):
                self.assertIn(f"\nglintloom {verb} ", shown.stdout.decode())
            self.assertIn("\nExit status: 0 answered; 1 refused", shown.stdout.decode())


class PrintedMachine(HostTest):
    """Document 002's machine: 1 GiB of image and its pagefile, sparse."""

    def test_worked_addresses(self):
        case = printed_machine(self.directory).words()
        lines = [
            place(0xB34000, 2, 0x296A2000, 4),
            place(0x777B0000, 1, 0x2312C000, 9),
            place(0xB10000, 25, 0, 9),
            place(0x1D0000, 22, 0, 4),
        ]
        self.says(["resolve", *case, "0xB34000", "0x777B0000", "0xB10000", "0x1D0000"], REFUSED, lines)
        lines = [done(0xB34000, "0x10 bytes"), stretch(0xB34000, 2, 0x296A2000, 0x10)]
        lines += dump(0xB34000, bytes([4, 0, 0, 0, 0, 0, 0, 0]) * 2)
        self.says(["read", *case, "0xB34000", "16"], ANSWERED, lines)
        lines = [done(0x777B0000, "0x80 bytes"), stretch(0x777B0000, 1, 0x2312C000, 0x80)] + dump(0x777B0000, make_case.MZ)
        self.says(["read", *case, "0x777B0000", "0x80"], ANSWERED, lines)
