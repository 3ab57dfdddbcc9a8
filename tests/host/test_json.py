"""--json of every verb: one valid document, 64-bit values as strings in hex, no bytes for a refusal; whole on a failure."""
import json
import os
import signal
import time

from cases import BLOCK_PLACES, PAGE, block_case, list_case, shipped_case
from expected import SHIPPED_MAP, WORDS, shipped_answers
from program import ANSWERED, FAILED, REFUSED, Conversation, HostTest, run


def answer(name, asked, number, **more):
    return {name: f"0x{asked:X}", "number": number, "words": WORDS[number], **more}


class Json(HostTest):
    def setUp(self):
        super().setUp()
        self.files = shipped_case(self.directory)
        self.case = self.files.words()

    def test_resolve(self):
        addresses = [address for address, *_ in shipped_answers()]
        shown = self.answers("resolve", *self.case, *addresses, status=REFUSED)
        self.assertEqual(len(shown), len(addresses))
        for one, (address, number, offset, entries) in zip(shown, shipped_answers()):
            self.assertEqual(one, answer("address", address, number, offset=f"0x{offset:X}", entries=entries))

    def test_no_address(self):
        self.assertEqual(self.answers("resolve", *self.case), [])

    def test_page(self):
        found, zeros, refused = self.answers("page", *self.case, "0xB35123", "0xB38000", "0x1D0000", status=REFUSED)
        content = self.files.pagefile.read_bytes()[PAGE:].hex().upper()
        self.assertEqual(found, answer("address", 0xB35000, 2, offset="0x1000", entries=4, bytes=content))
        self.assertEqual(zeros, answer("address", 0xB38000, 3, offset="0x0", entries=4, bytes="00" * PAGE))
        self.assertEqual(refused, answer("address", 0x1D0000, 22, offset="0x0", entries=4))

    def test_read(self):
        found = answer("address", 0xB37FFF, 1, offset="0x5FFF", length="0x1")
        zeros = answer("address", 0xB38000, 3, offset="0x0", length="0x2")
        expected = answer("address", 0xB37FFF, 0, length="0x3", stretches=[found, zeros], bytes="000000")
        self.assertEqual(self.answers("read", *self.case, "0xB37FFF", "3"), [expected])
        self.assertEqual(self.answers("read", *self.case, "0x777B0000", "4")[0]["bytes"], "4D5A9000")

    def test_read_of_nothing_and_refused(self):
        nothing = answer("address", 0, 0, length="0x0", stretches=[], bytes="")
        self.assertEqual(self.answers("read", *self.case, "0", "0"), [nothing])
        refused = self.answers("read", *self.case, "0xB38FFF", "2", status=REFUSED)
        self.assertEqual(refused, [answer("address", 0xB38FFF, 22, refused_address="0xB39000")])

    def test_map_and_lookup(self):
        expected = answer("start", 0xB34000, 0, length="0x29", bytes=SHIPPED_MAP.hex().upper())
        self.assertEqual(self.answers("map", *self.case, "0xB34000", "18"), [expected])
        refused = self.answers("map", *self.case, "0xB34001", "16", status=REFUSED)
        self.assertEqual(refused, [answer("start", 0xB34001, 40)])
        path = self.write("map", SHIPPED_MAP)
        expected = [answer("address", 0xB35123, 2, offset="0x1123"), answer("address", 0, 41, offset="0x0")]
        self.assertEqual(self.answers("lookup", path, "0xB35123", "0", status=REFUSED), expected)

    def test_processor_block(self):
        files, offsets = block_case(self.directory)
        expected = [
            answer("offset", offset, 1, self=f"0x{page + at:X}", directory_page="0x1", cr3="0x1000", entries=4)
            for offset, (page, at) in zip(offsets, BLOCK_PLACES)
        ]
        self.assertEqual(self.answers("processor-block", "--all", *files.words()), expected)
        refused = self.answers("processor-block", *files.words(), 2**64 - 1, status=REFUSED)
        self.assertEqual(refused, [{"number": 55, "words": WORDS[55], "from": "0xFFFFFFFFFFFFFFFF"}])

    def test_list(self):
        files, (head, *nodes) = list_case(self.directory, 3)
        expected = [answer("head", head, 0, nodes=[f"0x{node:X}" for node in nodes])]
        self.assertEqual(self.answers("list", *files.words(), head), expected)
        self.assertEqual(self.answers("list", *files.words(), head + 8, status=REFUSED), [answer("head", head + 8, 51)])
        files, (head, *_) = list_case(self.directory, 0)
        self.assertEqual(self.answers("list", *files.words(), head), [answer("head", head, 0, nodes=[])])

    def test_explain_and_help(self):
        expected = [{"number": number, "words": words} for number, words in WORDS.items()]
        self.assertEqual(self.answers("explain"), expected)
        self.assertEqual(self.answers("help"), [{"text": run("help").stdout.decode()}])

    def test_several_from_input(self):
        shown = run("resolve", "--json", *self.case, input=b"0xB38000\n0xB38000\n")
        self.assertEqual((shown.returncode, shown.stdout.count(b'"number":3')), (ANSWERED, 2))

    def test_refused_case_and_map(self):
        empty = self.write("empty", b"")
        sheet, image, pagefile = self.case
        for case, fault in (
            ((empty, image, pagefile), {"number": 10, "words": WORDS[10]}),
            ((sheet, pagefile, pagefile), {"number": 15, "words": WORDS[15], "asked_length": "0xD000", "image_length": "0x2000"}),
            ((sheet, image, sheet), {"number": 16, "words": WORDS[16], "pagefile_length": f"0x{sheet.stat().st_size:X}"}),
        ):
            for numbers in ([], ["0", "1"]):
                shown = run("resolve", "--json", *case, *numbers)
                self.assertEqual((shown.returncode, shown.stderr), (REFUSED, b""))
                self.assertEqual(json.loads(shown.stdout), {"verb": "resolve", "case": fault, "answers": []})
        shown = json.loads(run("lookup", "--json", empty).stdout)
        self.assertEqual(shown, {"verb": "lookup", "map": {"number": 10, "words": WORDS[10]}, "answers": []})


class Failures(HostTest):
    """What was wrong stands in a whole document, and on standard error."""

    def setUp(self):
        super().setUp()
        self.case = shipped_case(self.directory).words()
        self.zeros = answer("address", 0xB38000, 3, offset="0x0", entries=4)

    def fails_in_document(self, status, out, error, answers, message):
        document = json.loads(out)
        self.assertEqual(list(document), ["verb", "answers", "error"])
        self.assertEqual((status, error.decode()), (FAILED, f"glintloom: {document['error']}\n"))
        self.assertEqual(document["answers"], answers)
        self.assertIn(message, document["error"])

    def after(self, words, answers, message, **how):
        shown = run(*words, "--json", **how)
        self.fails_in_document(shown.returncode, shown.stdout, shown.stderr, answers, message)

    def test_a_wrong_line(self):
        for more in (b"", b"0xB38000\n"):
            text = b"0xB38000\n\n0xB38000\n0000000000400000\n" + more
            self.after(["resolve", *self.case], [self.zeros] * 2, "standard input, line 4: hex or decimal?", input=text)
        self.after(["resolve", *self.case], [], "line 1: no number", input=b"\"\\\x1b\n")

    def test_wrong_words(self):
        self.after(["resolve", *self.case, "0", "ju\"nk\x1b"], [], "'ju\"nk\\x1B': no number in hex")
        self.after(["read", *self.case, "0"], [], "too few operands")
        self.after(["resolve", *self.case, "0", "-o", "out"], [], "resolve takes no -o")
        self.after(["sheet", "--plain", "--pae", "0", "0+0x1000"], [], "--plain and --pae exclude each other")
        self.after(["sheet", "--pae", "--cr3", "0x07600821", "0+0x1000"], [], "CR3 is not a multiple of 32")

    def test_files_that_cannot_be_had(self):
        self.after(["resolve", *self.case[:2], self.directory / "missing", "0"], [], "missing: No such file or directory")
        self.after(["page", *self.case, "0xB3A000", "-o", self.directory / "no" / "out"], [], "No such file or directory")

    def test_ended_by_a_signal(self):
        """A document that has begun is closed; one that has not stays away."""
        for number in (signal.SIGINT, signal.SIGTERM):
            for answers in (0, 2):
                prepare = lambda: signal.signal(number, signal.SIG_DFL)
                talk = Conversation("resolve", "--json", *self.case, preexec_fn=prepare)
                out = b""
                for _ in range(answers):
                    talk.send(b"0xB38000")
                    out += talk.shown_until(b"}")
                time.sleep(0.02)  # for what the program does between the write and its wait for input
                talk.child.send_signal(number)
                talk.child.wait(timeout=60)
                status, rest, error = talk.end()
                self.assertEqual((status, error), (-number, b""))
                whole = {"verb": "resolve", "answers": [self.zeros] * answers, "error": "ended by a signal"}
                self.assertEqual(json.loads(out + rest) if answers else out + rest, whole if answers else b"")

    def test_file_cut_short(self):
        """Also where the lost page is met inside a call."""
        for length in (0, self.case[1].stat().st_size - 1):
            case = shipped_case(self.directory).words()
            talk = Conversation("resolve", "--json", *case)
            talk.send(b"0xB38000")
            out = talk.shown_until(b"}")
            os.truncate(case[1], length)
            status, rest, error = talk.end(b"0xB38000")
            self.fails_in_document(status, out + rest, error, [self.zeros], "image: was cut short")
