"""The verb `case`: what the sheet says, the lengths of the files beside what it asks for, or the fault."""
from cases import MACHINE_IMAGE, MACHINE_PAGEFILE, MACHINE_RUNS, PAE, PAGE, PLAIN, Files
from cases import machine_case, make_case, printed_machine, sheet_of, shipped_case
from expected import REFUSALS, WORDS, address_space, counted, json_address_space
from program import ANSWERED, REFUSED, HostTest


def lengths(asked, image, pagefile):
    """What stands behind the rest of the first line; no length is asked for by a sheet that has a fault of its own."""
    text = f", image length asked for 0x{asked:X}" if asked is not None else ""
    return f"{text}, image length 0x{image:X}, pagefile length 0x{pagefile:X}"


def accepted_lines(directory, runs, pagefile, mode=0, place=0):
    """The lines of an accepted case with runs as (first frame, pages)."""
    pages, before = sum(pages for _, pages in runs), 0
    head = f" 0 done{address_space(directory, mode, place)}, {counted(len(runs), 'run')}, {counted(pages, 'page')}"
    lines = [head + lengths(pages * PAGE, pages * PAGE, pagefile)]
    for first, pages in runs:
        start, last = first * PAGE, (first + pages) * PAGE - 1
        lines.append(f"0x{start:016X} to 0x{last:016X}, image offset 0x{before * PAGE:X}, {counted(pages, 'page')}")
        before += pages
    return lines


def refused_line(number, asked, image, pagefile):
    return f"{number} refused: {REFUSALS[number]}" + lengths(asked, image, pagefile)


class Case(HostTest):
    def sparse_case(self, sheet, image_length, pagefile_length=0):
        """Files of these lengths, without content."""
        files = Files(self.directory, sheet)
        for path, length in ((files.image, image_length), (files.pagefile, pagefile_length)):
            with open(path, "wb") as file:
                file.truncate(length)
        return files.words()

    def test_the_printed_machine(self):
        case = printed_machine(self.directory).words()
        self.says(["case", *case], ANSWERED, accepted_lines(make_case.DIRECTORY, MACHINE_RUNS, MACHINE_PAGEFILE))
        self.assertEqual(sum(pages for _, pages in MACHINE_RUNS) * PAGE, MACHINE_IMAGE)

    def test_one_run_of_one_page_without_pagefile(self):
        case = self.sparse_case(sheet_of(7, [(0, 1)]), PAGE)
        self.says(["case", *case[:2], "--no-pagefile"], ANSWERED, accepted_lines(7, [(0, 1)], 0))
        self.says(["case", *case], ANSWERED, accepted_lines(7, [(0, 1)], 0))

    def test_as_many_runs_as_there_may_be(self):
        runs = [(3 * k + 1, 2) for k in range(32)]
        case = self.sparse_case(sheet_of(2**36 - 1, runs), 64 * PAGE, 3 * PAGE)
        self.says(["case", *case], ANSWERED, accepted_lines(2**36 - 1, runs, 3 * PAGE))

    def test_a_run_that_ends_at_the_top(self):
        runs = [(2**36 - 2, 2)]
        self.says(["case", *self.sparse_case(sheet_of(0, runs), 2 * PAGE)], ANSWERED, accepted_lines(0, runs, 0))

    def test_profiles(self):
        """Both editions: the shipped machines, and directories at either end."""
        for name, machine in make_case.MACHINES.items():
            case, space = machine_case(name, self.directory), (machine.directory, machine.mode, machine.place)
            pagefile = case.pagefile.stat().st_size
            self.says(["case", *case.words()], ANSWERED, accepted_lines(space[0], machine.runs, pagefile, *space[1:]))
            (shown,) = self.answers("case", *case.words())
            self.assertLessEqual(json_address_space(*space).items(), {k: v for k, v in shown.items() if k != "runs"}.items())
        for directory, mode, place in ((7, 0, 0), (0, PLAIN, 0), (2**36 - 1, PLAIN, 0), (0, PAE, 0), (2**36 - 1, PAE, 127)):
            case = self.sparse_case(sheet_of(directory, [(0, 1)], mode, place), PAGE)
            self.says(["case", *case], ANSWERED, accepted_lines(directory, [(0, 1)], 0, mode, place))

    def test_refused_for_a_mode_or_a_place(self):
        for fields in ([2, 7, 0, 0], [2, 7, 3, 0], [2, 7, 1, 1], [2, 7, 1, 127], [2, 7, 2, 128], [3, 7, 2, 0]):
            sheet = b"".join(map(make_case.groups, [*fields, 1, 0, 1]))
            self.says(["case", *self.sparse_case(sheet, PAGE)], REFUSED, [refused_line(12, None, PAGE, 0)])
        # Refused when the mode is read, before the place.
        self.says(["case", *self.sparse_case(b"\2\7\0", PAGE)], REFUSED, [refused_line(12, None, PAGE, 0)])
        self.says(["case", *self.sparse_case(b"\2\7\2", PAGE)], REFUSED, [refused_line(10, None, PAGE, 0)])

    def test_refused_for_the_length_of_a_file(self):
        sheet = sheet_of(1, [(1, 4), (9, 1)])
        for image, pagefile, number in ((4 * PAGE, 0, 15), (0, 1, 15), (5 * PAGE + 1, 0, 15), (5 * PAGE, 4095, 16)):
            case = self.sparse_case(sheet, image, pagefile)
            self.says(["case", *case], REFUSED, [refused_line(number, 5 * PAGE, image, pagefile)])

    def test_refused_for_a_fault_of_the_sheet(self):
        good = sheet_of(1, [(1, 4)])
        wrong_run = bytes([1, 1, 2, 1, 4, 0, 1])
        for sheet, number in ((good[:-1], 10), (b"\x03", 12), (wrong_run, 13), (good + b"\0", 14)):
            case = self.sparse_case(sheet, 4 * PAGE, PAGE)
            self.says(["case", *case], REFUSED, [refused_line(number, None, 4 * PAGE, PAGE)])

    def test_json(self):
        files = shipped_case(self.directory)
        shown = self.answers("case", *files.words())
        self.assertEqual(len(shown), 1)
        runs = shown[0].pop("runs")
        length = f"0x{files.image.stat().st_size:X}"
        expected = {"number": 0, "words": WORDS[0], **json_address_space(make_case.DIRECTORY), "run_count": len(runs)}
        expected |= {"pages": files.image.stat().st_size // PAGE, "asked_length": length, "image_length": length}
        self.assertEqual(shown, [expected | {"pagefile_length": f"0x{files.pagefile.stat().st_size:X}"}])
        self.assertEqual(runs[0], {"start": "0x200000", "last": "0x203FFF", "image_offset": "0x0", "pages": 4})
        self.assertEqual(sum(run["pages"] for run in runs) * PAGE, files.image.stat().st_size)

    def test_json_of_refusals(self):
        expected = {"number": 15, "words": WORDS[15], "asked_length": "0x1000", "image_length": "0x0", "pagefile_length": "0x0"}
        case = self.sparse_case(sheet_of(1, [(1, 1)]), 0)
        self.assertEqual(self.answers("case", *case, status=REFUSED), [expected])
        expected = {"number": 10, "words": WORDS[10], "image_length": "0x0", "pagefile_length": "0x0"}
        self.assertEqual(self.answers("case", *self.sparse_case(b"", 0), status=REFUSED), [expected])

    def test_wrong_use(self):
        case = shipped_case(self.directory).words()
        self.fails(["case", *case, "0"], "too many operands")
        self.fails(["case", *case, "-o", "out"], "case takes no -o")
