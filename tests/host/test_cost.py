"""What runs cost: hex digits beside a dump, and the system calls of many answers."""
import random
import re
import resource
import shutil
import socket
import subprocess

from cases import PAGE, large_page_case, shipped_case
from expected import place
from program import ANSWERED, BUILT, ENVIRONMENT, Conversation, HostTest, Program, command, run

ADDRESSES = 200


def processor_seconds():
    """Of all runs so far."""
    used = resource.getrusage(resource.RUSAGE_CHILDREN)
    return used.ru_utime + used.ru_stime


class Digits(HostTest):
    LENGTH = 4 << 20

    def seconds(self, *words):
        """Of the processor; the best of three."""
        times = []
        for _ in range(3):
            before = processor_seconds()
            self.assertEqual(run(*words, stdout=subprocess.DEVNULL).returncode, ANSWERED)
            times.append(processor_seconds() - before)
        return min(times)

    def test_json_takes_no_longer_than_a_dump(self):
        if Program.path != BUILT / "glintloom":
            self.skipTest("times under the sanitizers say nothing")
        files = large_page_case(self.directory, self.LENGTH // PAGE)
        with files.image.open("r+b") as image:
            image.seek(2 * PAGE)
            image.write(random.Random(1).randbytes(self.LENGTH - 2 * PAGE))
        words = ["read", *files.words(), 0, self.LENGTH]
        self.assertLess(self.seconds(*words, "--json"), 1.5 * self.seconds(*words))


class ManyAnswers(HostTest):
    def setUp(self):
        super().setUp()
        self.case = shipped_case(self.directory).words()
        self.text = b"0xB38000\n" * ADDRESSES
        self.lines = (place(0xB38000, 3, 0, 4) + "\n").encode() * ADDRESSES

    def test_addresses_that_come_together(self):
        """Their answers are written together: each packet of the socket is one write."""
        ours, theirs = socket.socketpair(socket.AF_UNIX, socket.SOCK_SEQPACKET)
        with ours, theirs:
            ours.settimeout(60)
            talk = Conversation("resolve", *self.case, stdout=theirs)
            talk.child.stdin.write(self.text)
            talk.child.stdin.flush()
            packets = [ours.recv(1 << 20)]
            while len(b"".join(packets)) < len(self.lines):
                packets.append(ours.recv(1 << 20))
            self.assertEqual(b"".join(packets), self.lines)
            self.assertLess(len(packets), ADDRESSES // 8)
            self.assertEqual(talk.end()[0], ANSWERED)

    def test_addresses_one_by_one(self):
        """Each is answered before the next is given."""
        talk = Conversation("resolve", *self.case)
        for _ in range(5):
            self.assertEqual(talk.ask(b"0xB38000"), self.lines[: len(self.lines) // ADDRESSES])
        self.assertEqual(talk.end(), (ANSWERED, b"", b""))

    def test_part_of_a_line_waits_for_its_end(self):
        talk = Conversation("resolve", *self.case)
        talk.child.stdin.write(b"0xB38000\n0xB3")
        talk.child.stdin.flush()
        self.assertEqual(talk.child.stdout.readline(), self.lines[: len(self.lines) // ADDRESSES])
        self.assertEqual(talk.ask(b"8000"), self.lines[: len(self.lines) // ADDRESSES])
        self.assertEqual(talk.end(), (ANSWERED, b"", b""))

    def test_system_calls(self):
        """The terminal is asked for once, the files are looked at once for all of the answers."""
        if Program.path != BUILT / "glintloom" or not shutil.which("strace"):
            self.skipTest("needs strace and the normal build")
        trace, sent = self.directory / "trace", self.write("addresses", self.text)
        with sent.open("rb") as addresses:
            traced = ["strace", "-o", trace, *command("resolve", *self.case)]
            done = subprocess.run(traced, stdin=addresses, capture_output=True, env=ENVIRONMENT)
        self.assertEqual((done.stdout, done.returncode), (self.lines, ANSWERED))
        calls = trace.read_text().split(str(self.case[2]), 1)[1]
        self.assertLess(len(re.findall(r"^(?:new)?fstat", calls, re.M)), 20)
        self.assertLess(len(re.findall(r"^ioctl\(1, TCGETS", trace.read_text(), re.M)), 3)
