"""Wrong use, files that cannot be had, and standard output that cannot be written: exit status 2 and a clear line."""
import os
import pty
import re
import select
import signal
import subprocess
import time

from cases import pool_page, shipped_case
from expected import place
from program import ANSWERED, ENVIRONMENT, FAILED, ROOT, Conversation, HostTest, command, run, run_redirected

NO_NUMBERS = ("", "x", "0x", "-1", "+1", " 1", "1 ", "0x1G", "0b1", "1.5", "12abc", "0x-1", "1,000", "0x1 0x2", "ff")
NO_NUMBERS += ("777B0000", "00000000777B000", "00000000777B00000", "00000000777B000G")
NO_NUMBERS += ("`", "1`", "`00000001", "0x`00000001", "1`1", "1`000000001", "0`00000000`00000001", "g`00000001")
TOO_LARGE = ("18446744073709551616", "0x10000000000000000", "99999999999999999999999999", "0x1" + "0" * 40)
TOO_LARGE += ("100000000`00000000",)
# As a dump prints it without 0x, a decimal that someone made even, and 16 digits that might be either.
UNCLEAR = ("0000000000400000", "00", "01", "00011755519", "1234567890123456", "0" * 40)
HINT = "hex or decimal? Write hex as 0x.., decimal without 0 in front and not with 16 digits"

# Each verb that takes a case, with numbers that it takes.
CASE_VERBS = {
    "case": [],
    "resolve": ["0"],
    "page": ["0"],
    "read": ["0", "1"],
    "time": ["0"],
    "map": ["0", "1"],
    "processor-block": [],
    "list": ["0"],
}


class WrongUse(HostTest):
    def setUp(self):
        super().setUp()
        self.case = shipped_case(self.directory).words()

    def test_no_words(self):
        shown = run()
        self.assertEqual((shown.returncode, shown.stdout, shown.stderr), (FAILED, b"", run("help").stdout))

    def test_unknown_words(self):
        self.fails(["resolv"], "no verb 'resolv'")
        self.fails([""], "no verb ''")
        self.fails(["resolve", *self.case, "--jsn", "0"], "no option '--jsn'")
        self.fails(["resolve", *self.case, "-5"], "no option '-5'")

    def test_options_of_other_verbs(self):
        self.fails(["resolve", *self.case, "0", "-o", "out"], "resolve takes no -o")
        self.fails(["lookup", "--no-pagefile", "map", "0"], "lookup takes no --no-pagefile")
        self.fails(["list", "--all", *self.case, "0"], "list takes no --all")
        self.fails(["help", "--all"], "help takes no --all")
        self.fails(["pool", "--no-pagefile", self.case[1]], "pool takes no --no-pagefile")
        self.fails(["map", "--pages", *self.case, "0", "1"], "map takes no --pages")
        self.fails(["case", "--plain", *self.case], "case takes no --plain")
        self.fails(["resolve", "--pae", *self.case, "0"], "resolve takes no --pae")
        self.fails(["list", *self.case, "--cr3", "0"], "list takes no --cr3")

    def test_counts_of_operands(self):
        for words in (
            ["resolve"],
            ["resolve", *self.case[:2]],
            ["case", *self.case[:2]],
            ["resolve", "--no-pagefile", self.case[0]],
            ["page", *self.case[:2]],
            ["time", *self.case[:2]],
            ["read", *self.case],
            ["read", *self.case, "0"],
            ["map", *self.case, "0"],
            ["list", *self.case],
            ["lookup"],
            ["pool"],
            ["sheet"],
        ):
            self.fails(words, "too few operands")
        for words in (
            ["read", *self.case, "0", "1", "2"],
            ["map", *self.case, "0", "1", "2"],
            ["list", *self.case, "0", "8"],
            ["processor-block", *self.case, "0", "8"],
            ["pool", *self.case[:2]],
            ["help", "resolve", "page"],
        ):
            self.fails(words, "too many operands")

    def test_output_option(self):
        self.fails(["page", *self.case, "0xB38000", "-o"], "-o takes one file")
        self.fails(["page", *self.case, "0xB38000", "-o", "a", "-o", "b"], "-o takes one file")
        self.fails(["page", *self.case, "-o", "a"], "-o takes exactly one address", input=b"0xB38000\n")
        self.fails(["page", *self.case, "0xB38000", "0xB38000", "-o", "a"], "-o takes exactly one address")

    def test_numbers(self):
        for text in NO_NUMBERS + TOO_LARGE:
            self.fails(["resolve", *self.case, "--", text], "no number in hex")
        for text in ("x", TOO_LARGE[0]):
            self.fails(["read", *self.case, "0", text], "no number in hex")
            self.fails(["explain", text], "no number in hex")

    def test_unclear_numbers(self):
        for text in UNCLEAR:
            self.fails(["resolve", *self.case, text], f"'{text}': {HINT}")
            self.fails(["resolve", *self.case], f"standard input, line 2: {HINT}", input=f"\n {text}\n".encode())
        self.fails(["read", *self.case, "0", "010"], f"'010': {HINT}")
        self.fails(["explain", "022"], f"'022': {HINT}")

    def test_an_address_from_a_dump(self):
        """What a dump or a list prints can be asked again, and is the same address."""
        dump = run("page", *self.case, "0x777B0000").stdout.decode().splitlines()
        addresses = [line.split()[0] for line in dump if line != "*"]
        self.assertGreater(len(addresses), 8)
        lines = [place(address, 1, address - 0x777B0000 + 0x5000, 9) for address in (int(text, 16) for text in addresses)]
        self.says(["resolve", *self.case, *addresses], ANSWERED, lines)
        self.says(["resolve", *self.case, *(text[2:] for text in addresses[1:])], ANSWERED, lines[1:])

    def test_a_wrong_number_stops_all(self):
        self.fails(["resolve", *self.case, "0xB38000", "junk"], "'junk': no number in hex")

    def test_numbers_on_input(self):
        for text in ("x", "0x", "-1", "0x1 0x2", TOO_LARGE[0], "0x10\0", "0x1" + " " * 200 + "junk", "0" * 200):
            self.fails(["resolve", *self.case], "standard input, line 2: no number", input=f"\n{text}\n".encode())

    def test_answers_before_a_wrong_line_stand(self):
        shown = run("resolve", *self.case, input=b"0xB38000\njunk\n0xB38000\n")
        self.assertEqual(shown.returncode, FAILED)
        self.assertEqual(shown.stdout, b"0x0000000000B38000   3 page of zeros, by the tables, 4 entries read\n")
        self.assertIn(b"standard input, line 2: no number", shown.stderr)

    def test_no_pagefile_is_not_a_name(self):
        self.fails(["resolve", *self.case[:2], "none", "0"], "none: No such file or directory", cwd=self.directory)
        self.fails(["resolve", *self.case, "--no-pagefile", "0"], "no number in hex")


class InputFiles(HostTest):
    def setUp(self):
        super().setUp()
        self.case = shipped_case(self.directory).words()

    def each_place(self, name, message):
        """The same name for each of the files that a verb takes."""
        for place in range(3):
            words = list(self.case)
            words[place] = name
            self.fails(["resolve", *words, "0"], message)
        for verb, numbers in CASE_VERBS.items():
            self.fails([verb, *words, *numbers], message)
        self.fails(["lookup", name, "0"], message)
        self.fails(["pool", name], message)

    def test_missing(self):
        self.each_place(self.directory / "missing", "missing: No such file or directory")

    def test_directory(self):
        """A directory in the first place is a folder that holds the case."""
        for case in ([self.case[0], self.directory, self.case[2]], [*self.case[:2], self.directory]):
            self.fails(["resolve", *case, "0"], f"{self.directory}: not a regular file")
        self.fails(["lookup", self.directory, "0"], f"{self.directory}: not a regular file")

    def test_pipe_and_device(self):
        os.mkfifo(self.directory / "pipe")
        self.each_place(self.directory / "pipe", "not a regular file")
        self.each_place("/dev/null", "not a regular file")

    def test_no_stated_length(self):
        self.each_place("/proc/version", "/proc/version: has no stated length")

    def test_unreadable(self):
        self.case[1].chmod(0)
        for words in (["resolve", *self.case, "0"], ["pool", self.case[1]]):
            self.fails(words, "image: Permission denied", **self.as_nobody())

    def test_closed_input(self):
        """No file takes the descriptor of a closed standard input."""
        shown = run_redirected("<&-", "resolve", *self.case)
        self.assertEqual((shown.returncode, shown.stdout), (FAILED, b""))
        self.assertEqual(shown.stderr, b"glintloom: standard input: Bad file descriptor\n")

    def test_directory_as_input(self):
        descriptor = os.open(self.directory, os.O_RDONLY)
        self.addCleanup(os.close, descriptor)
        self.fails(["resolve", *self.case], "standard input: Is a directory", stdin=descriptor)


class StandardOutput(HostTest):
    def setUp(self):
        super().setUp()
        self.case = shipped_case(self.directory).words()
        self.commands = (
            ["resolve", *self.case, "0xB38000"],
            ["resolve", "--json", *self.case, "0xB38000"],
            ["page", *self.case, "0x777B0000"],
            ["read", *self.case, "0x777B0000", "0x1000"],
            ["time", *self.case, "0x777B0000"],
            ["map", *self.case, "0xB34000", "1"],
            ["processor-block", *self.case],
            ["list", *self.case, "0"],
            ["pool", self.case[1]],
            ["sheet", "0x1000", "0x1000+0x1000"],
            ["explain"],
            ["help"],
        )

    def test_full_disk(self):
        with open("/dev/full", "wb") as full:
            for words in self.commands:
                self.fails(words, "standard output: No space left on device", stdout=full)

    def test_closed_pipe(self):
        """Ends as other tools do: by the signal, without a word."""
        for words in (*self.commands, ["page", *self.case, "0x777B0000", "-o", "-"]):
            reader, writer = os.pipe()
            os.close(reader)
            shown = run(*words, stdout=writer)
            self.assertEqual((shown.returncode, shown.stderr), (-signal.SIGPIPE, b""))
            os.close(writer)

    def test_closed_pipe_where_the_signal_is_ignored(self):
        reader, writer = os.pipe()
        os.close(reader)
        ignore = {"restore_signals": False, "preexec_fn": lambda: signal.signal(signal.SIGPIPE, signal.SIG_IGN)}
        self.fails(self.commands[0], "standard output: Broken pipe", stdout=writer, **ignore)
        os.close(writer)

    def test_closed_output(self):
        for words in self.commands:
            shown = run_redirected(">&-", *words)
            self.assertEqual(shown.returncode, FAILED)
            self.assertIn(b"standard output: Bad file descriptor", shown.stderr)

    def test_closed_output_leaves_the_file_alone(self):
        """No file takes the descriptor of a closed standard output."""
        shown = run_redirected(">&- 2>&- <&-", "page", *self.case, "0x777B0000", "-o", self.directory / "page")
        self.assertEqual(shown.returncode, FAILED)
        self.assertEqual((self.directory / "page").read_bytes(), self.case[1].read_bytes()[0x5000:0x6000])

    def test_pipe_closed_between_addresses(self):
        talk = Conversation("resolve", *self.case)
        self.assertIn(b"page of zeros", talk.ask(b"0xB38000"))
        talk.child.stdout.close()
        status, _, error = talk.end(b"0xB38000")
        self.assertEqual((status, error), (-signal.SIGPIPE, b""))


class Progress(HostTest):
    """Shown on a terminal from the first second on, never in a pipe."""

    LINES = r"(\rglintloom: \d+ s, %s answered)"
    ERASED = r"\r\x1b\[K"

    def setUp(self):
        super().setUp()
        self.case = shipped_case(self.directory).words()
        self.reader, self.writer = pty.openpty()
        self.addCleanup(os.close, self.reader)

    def shown_until(self, text):
        shown = ""
        while text not in shown:
            self.assertTrue(select.select([self.reader], [], [], 30)[0], shown)
            shown += os.read(self.reader, 4096).decode()
        return shown

    def shown_to_the_end(self):
        """What is left to read once nobody writes."""
        os.write(self.writer, b"end")
        os.close(self.writer)
        return self.shown_until("end")

    def test_on_a_terminal(self):
        talk = Conversation("resolve", *self.case, stderr=self.writer)
        talk.ask(b"0xB38000")
        shown = self.shown_until("answered")
        self.assertEqual(talk.end(b"0xB38000")[0], ANSWERED)
        shown += self.shown_to_the_end()
        self.assertRegex(shown, rf"\A{self.LINES % '[012]'}+{self.ERASED}end\Z")

    def test_taken_away_by_a_signal(self):
        talk = Conversation("resolve", *self.case, stderr=self.writer)
        shown = self.shown_until("answered")
        talk.child.terminate()
        self.assertEqual(talk.end()[0], -signal.SIGTERM)
        shown += self.shown_to_the_end()
        self.assertRegex(shown, rf"\A{self.LINES % 0}+{self.ERASED}end\Z")

    def test_goes_on_between_answers(self):
        """Answers on the same terminal: the line makes way for each and comes again."""
        talk = Conversation("resolve", *self.case, stdout=self.writer, stderr=self.writer)
        talk.send(b"0xB38000")
        shown = self.shown_until("1 answered")
        self.assertEqual(talk.end(b"0xB38000")[0], ANSWERED)
        shown += self.shown_to_the_end()
        answer = re.escape(place(0xB38000, 3, 0, 4)) + "\r\n"
        before, between, after = (f"({self.LINES % count}+{self.ERASED})" for count in (0, 1, 2))
        self.assertRegex(shown, rf"\A{before}?{answer}{between}{answer}{after}?end\Z")

    def test_share_of_an_answer(self):
        """How much of an image is searched, while nobody takes the headers of the first part."""
        image = self.write("pools", pool_page(*[32] * 16) * 512)
        talk = Conversation("pool", image, stderr=self.writer)
        shown = self.shown_until("%")
        status, out, _ = talk.end()
        self.assertEqual((status, len(out.splitlines())), (ANSWERED, 16 * 512 + 1))
        shown += self.shown_to_the_end()
        self.assertRegex(shown, rf"\A({self.LINES % 0}, 50 %)+{self.ERASED}end\Z")

    def test_not_within_a_document(self):
        """JSON on the same terminal is one line, which stays."""
        talk = Conversation("resolve", "--json", *self.case, stdout=self.writer, stderr=self.writer)
        talk.send(b"0xB38000")
        shown = self.shown_until("}")
        time.sleep(1.3)
        self.assertEqual(talk.end()[0], ANSWERED)
        shown += self.shown_to_the_end()
        self.assertRegex(shown, rf'\A({self.LINES % 0}+{self.ERASED})?{{"verb":[^\r]*]}}\r\nend\Z')

    def test_not_in_a_pipe(self):
        talk = Conversation("resolve", *self.case)
        talk.ask(b"0xB38000")
        time.sleep(1.3)
        status, _, error = talk.end(b"0xB38000")
        self.assertEqual((status, error), (ANSWERED, b""))

    def test_not_for_short_work(self):
        """If it took a second all the same, the line is gone at the end."""
        subprocess.run(command("help"), stdout=subprocess.DEVNULL, stderr=self.writer, env=ENVIRONMENT, check=True)
        self.assertRegex(self.shown_to_the_end(), rf"\A({self.LINES % 0}+{self.ERASED})?end\Z")


class ManualPage(HostTest):
    def test_names_every_verb_and_option(self):
        text = (ROOT / "host" / "glintloom.1").read_text()
        options = ("--json", "--no-pagefile", "--all", "--pages", "--plain", "--pae", "--cr3", "-o", "--help", "--version")
        for verb in (*CASE_VERBS, "sheet", "lookup", "pool", "explain", "help"):
            self.assertIn(f"\n\\fBglintloom {verb}\\fR".replace("-", "\\-"), text)
            self.assertIn(f"\n.B {verb}\n".replace("-", "\\-"), text)
        for option in options:
            self.assertIn(option.replace("-", "\\-"), text)
