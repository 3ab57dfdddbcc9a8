"""Runs that are disturbed: files cut short or changed while they are read, and signals."""
import os
import resource
import signal
import subprocess
import time
from pathlib import Path

from cases import PAGE, RING_PAGES, large_page_case, ring_case, shipped_case
from expected import place
from program import ANSWERED, ENVIRONMENT, FAILED, Conversation, HostTest, command

TRIES = 40
TICK = 0.02  # seconds: times of change that are so far apart differ on every clock of a file system


class CutShort(HostTest):
    """A file cut short, or changed, while it is mapped."""

    def change_between_addresses(self, words, path, change, message, first=b"0xB38000", second=b"0xB37000"):
        talk = Conversation(*words)
        before = talk.ask(first)
        change(path)
        status, out, error = talk.end(second)
        self.assertEqual((out, status), (b"", FAILED))
        self.assertEqual(error.decode(), f"glintloom: {path}: {message} while it was read\n")
        return before

    def cut_between_addresses(self, words, path, first=b"0xB38000", second=b"0xB37000"):
        lost = "was cut short, or its disk failed,"
        return self.change_between_addresses(words, path, lambda name: os.truncate(name, 0), lost, first, second)

    def test_within_the_last_page(self):
        """What a file lost of its last page reads as zeros; nothing may be answered from them."""
        for path in shipped_case(self.directory).words():
            words = ["resolve", *shipped_case(self.directory).words()]
            cut = lambda name: os.truncate(name, name.stat().st_size - 1)
            self.change_between_addresses(words, path, cut, "was cut short")

    def test_other_changes(self):
        def lengthen(name):
            """The time of change stays, as it does where the clock is coarse."""
            times = name.stat()
            os.truncate(name, times.st_size + 1)
            os.utime(name, ns=(times.st_atime_ns, times.st_mtime_ns))

        def write_over(name):
            name.open("r+b").write(b"\1")
            os.utime(name, (0, 0))

        def write_over_and_set_back(name):
            times = name.stat()
            time.sleep(TICK)
            name.open("r+b").write(b"\1")
            os.utime(name, ns=(times.st_atime_ns, times.st_mtime_ns))

        written = "was written to, or its times were set,"
        for change, told in ((lengthen, "was lengthened"), (write_over, written), (write_over_and_set_back, written)):
            for path in shipped_case(self.directory).words():
                words = ["page", *shipped_case(self.directory).words()]
                self.change_between_addresses(words, path, change, told, first=b"0x1D0000")

    def test_links_and_rights(self):
        """These are told, once for each change, and the run goes on."""
        def replace(name):
            self.write("other", b"another file").rename(name)

        for change in (lambda name: name.chmod(0o444), lambda name: os.link(name, f"{name}.link"), os.unlink, replace):
            for path in shipped_case(self.directory).words():
                talk = Conversation("resolve", *shipped_case(self.directory).words())
                answers = [talk.ask(b"0xB35000")]
                time.sleep(TICK)
                change(path)
                answers += [talk.ask(b"0xB35000") for _ in range(3)]
                self.assertEqual(set(answers), {place(0xB35000, 2, 0x1000, 4).encode() + b"\n"})
                status, _, error = talk.end()
                told = f"glintloom: {path}: its links, owner or rights were changed while it was read\n"
                self.assertEqual((status, error.decode()), (ANSWERED, told))
                path.with_name(f"{path.name}.link").unlink(missing_ok=True)

    def test_rights_and_then_content(self):
        files = shipped_case(self.directory)
        talk = Conversation("resolve", *files.words())
        talk.ask(b"0xB35000")
        time.sleep(TICK)
        files.image.chmod(0o600)
        talk.ask(b"0xB35000")
        os.truncate(files.image, files.image.stat().st_size - 1)
        status, out, error = talk.end(b"0xB35000")
        self.assertEqual((status, out), (FAILED, b""))
        self.assertEqual(error.decode().splitlines()[1], f"glintloom: {files.image}: was cut short while it was read")

    def test_image(self):
        files = shipped_case(self.directory)
        before = self.cut_between_addresses(["resolve", *files.words()], files.image)
        self.assertEqual(before, b"0x0000000000B38000   3 page of zeros, by the tables, 4 entries read\n")

    def test_sheet(self):
        files = shipped_case(self.directory)
        self.cut_between_addresses(["resolve", *files.words()], files.sheet)

    def test_pagefile(self):
        """The page's bytes are read when its place is known already."""
        files = shipped_case(self.directory)
        self.cut_between_addresses(["page", *files.words()], files.pagefile, b"0x1D0000", b"0xB35000")

    def test_map(self):
        path = self.write("map", bytes.fromhex("01b816010301"))
        self.cut_between_addresses(["lookup", path], path)

    def cut_while_mapped(self, image, words):
        """Cuts the image as soon as the program has it mapped."""
        talk = Conversation(*words)
        maps = Path(f"/proc/{talk.child.pid}/maps")
        while talk.child.poll() is None and str(image) not in maps.read_text():
            pass
        os.truncate(image, 0)
        return talk.end()

    def test_during_a_long_map(self):
        files, _ = ring_case(self.directory)
        content, out = files.image.read_bytes(), self.directory / "results" / "out"
        out.parent.mkdir()
        for _ in range(TRIES):
            out.write_bytes(b"as it was")
            files.image.write_bytes(content)
            status, shown, error = self.cut_while_mapped(files.image, ["map", *files.words(), 0, RING_PAGES, "-o", out])
            if status == FAILED:
                break
        self.assertEqual((status, shown), (FAILED, b""))
        self.assertIn(b"was cut short", error)
        self.assertEqual((os.listdir(out.parent), out.read_bytes()), (["out"], b"as it was"))


def default_action(number):
    """For a child: the signal as a shell leaves it, and no core file."""
    resource.setrlimit(resource.RLIMIT_CORE, (0, 0))
    signal.signal(number, signal.SIG_DFL)


class ToldToEnd(HostTest):
    """A signal while the output file is written leaves no temporary file."""

    LENGTH = 64 << 20
    SIGNALS = (
        signal.SIGBUS,
        signal.SIGHUP,
        signal.SIGINT,
        signal.SIGQUIT,
        signal.SIGTERM,
        signal.SIGUSR1,
        signal.SIGUSR2,
        signal.SIGALRM,
        signal.SIGPOLL,
        signal.SIGVTALRM,
        signal.SIGPROF,
        signal.SIGXCPU,
        signal.SIGPWR,
        signal.SIGRTMIN,
    )

    def setUp(self):
        super().setUp()
        files = large_page_case(self.directory, self.LENGTH // PAGE)
        self.out = self.directory / "results" / "out"
        self.out.parent.mkdir()
        self.words = ["read", *files.words(), 0, self.LENGTH, "-o", self.out]

    def is_writing(self):
        return any(name.startswith(".glintloom-") for name in os.listdir(self.out.parent))

    def end_while_writing(self, number):
        """Whether the signal came before the file had its name; if not, the file is whole."""
        how = {"stdout": subprocess.DEVNULL, "stderr": subprocess.DEVNULL, "preexec_fn": lambda: default_action(number)}
        child = subprocess.Popen(command(*self.words), env=ENVIRONMENT, **how)
        while child.poll() is None and not self.is_writing():
            time.sleep(0.0002)
        child.send_signal(number)
        status = child.wait(timeout=60)
        self.assertIn(status, (ANSWERED, -number))
        self.assertFalse(self.is_writing())
        if not self.out.exists():
            self.assertEqual(status, -number)
            return True
        self.assertEqual(self.out.stat().st_size, self.LENGTH)
        self.out.unlink()
        return False

    def test_by_signal(self):
        for number in self.SIGNALS:
            if not any(self.end_while_writing(number) for _ in range(TRIES)):
                self.skipTest(f"{number.name} never came while the file was written")


class ToldToEndAtWork(HostTest):
    """A signal during a call: its status, no word, no file, and an existing one as it was."""

    LENGTH = 256 << 20

    def setUp(self):
        super().setUp()
        (self.directory / "ring").mkdir()
        (self.directory / "large").mkdir()
        ring, large = ring_case(self.directory / "ring")[0], large_page_case(self.directory / "large", self.LENGTH // PAGE)
        self.out = self.directory / "results" / "out"
        self.out.parent.mkdir()
        self.commands = (
            (ring.image, ["map", *ring.words(), 0, RING_PAGES, "-o", self.out]),
            (large.image, ["read", *large.words(), 0, self.LENGTH, "-o", self.out]),
            (large.image, ["processor-block", *large.words()]),
        )

    def end_at_work(self, number, image, words):
        """Whether the signal came before the end; it is sent as soon as the image is mapped."""
        pipes = {"stdout": subprocess.PIPE, "stderr": subprocess.PIPE}
        child = subprocess.Popen(command(*words), env=ENVIRONMENT, preexec_fn=lambda: default_action(number), **pipes)
        while child.poll() is None and str(image) not in Path(f"/proc/{child.pid}/maps").read_text():
            pass
        time.sleep(0.005)
        child.send_signal(number)
        out, error = child.communicate(timeout=60)
        if child.returncode != -number:
            return False
        self.assertEqual((out, error), (b"", b""))
        return True

    def test_by_signal(self):
        for image, words in self.commands:
            for number in (signal.SIGINT, signal.SIGTERM, signal.SIGBUS):
                for before in ([], ["out"]):
                    for _ in range(TRIES):
                        self.out.unlink(missing_ok=True)
                        if before:
                            self.out.write_bytes(b"as it was")
                        if self.end_at_work(number, image, words):
                            break
                    else:
                        self.fail(f"{number.name} never came while {words[0]} was at work")
                    self.assertEqual(os.listdir(self.out.parent), before)
                    self.assertEqual(self.out.exists() and self.out.read_bytes(), before != [] and b"as it was")

    def test_between_addresses(self):
        """SIGBUS from outside is no lost page."""
        case = shipped_case(self.directory).words()
        for number in (signal.SIGINT, signal.SIGTERM, signal.SIGBUS):
            talk = Conversation("resolve", *case, preexec_fn=lambda: default_action(number))
            talk.ask(b"0xB38000")
            talk.child.send_signal(number)
            talk.child.wait(timeout=60)
            self.assertEqual(talk.end(), (-number, b"", b""))
