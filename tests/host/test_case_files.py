"""The files of a case: a folder that holds them, their time of access, and names that hold control characters."""
import os

from cases import shipped_case
from expected import place
from program import ANSWERED, FAILED, Conversation, HostTest, run

VERBS = (
    ["resolve", "0xB35000", "0xB38000"],
    ["page", "0xB35000"],
    ["read", "0xB35000", "16"],
    ["time", "0xB35110", "0xB38000"],
    ["map", "0xB34000", "16"],
    ["processor-block"],
    ["list", "0xB35000"],
)


class Folder(HostTest):
    def setUp(self):
        super().setUp()
        self.folder = self.directory / "case"
        self.folder.mkdir()
        self.files = shipped_case(self.folder)

    def same_run(self, one, other, **how):
        one, other = run(*one, **how), run(*other)
        self.assertEqual((one.stdout, one.stderr, one.returncode), (other.stdout, other.stderr, other.returncode))
        self.assertNotEqual(one.returncode, FAILED)

    def test_every_verb(self):
        for verb, *numbers in VERBS:
            self.same_run([verb, self.folder, *numbers], [verb, *self.files.words(), *numbers])

    def test_without_pagefile(self):
        words = ["resolve", *self.files.words()[:2], "--no-pagefile", "0xB35000"]
        self.same_run(["resolve", self.folder, "--no-pagefile", "0xB35000"], words)
        self.files.pagefile.unlink()
        self.same_run(["--no-pagefile", "resolve", self.folder, "0xB35000"], words)

    def test_names_of_the_folder(self):
        link = self.directory / "link"
        link.symlink_to(self.folder)
        words = ["resolve", *self.files.words(), "0xB35000"]
        self.same_run(["resolve", ".", "0xB35000"], words, cwd=self.folder)
        for name in (f"{self.folder}/", link, f"{self.directory}/case/../case"):
            self.same_run(["resolve", name, "0xB35000"], words)

    def test_output_into_the_folder(self):
        self.fails(["page", self.folder, "0xB35000", "-o", self.files.image], "is an input file, and is not written over")
        self.assertEqual(run("page", self.folder, "0xB35000", "-o", self.folder / "out").returncode, ANSWERED)
        self.assertEqual((self.folder / "out").read_bytes(), self.files.pagefile.read_bytes()[0x1000:])

    def test_what_is_missing(self):
        """A missing pagefile is no case without one."""
        for name in ("pagefile", "image", "sheet"):
            (self.folder / name).unlink()
            self.fails(["resolve", self.folder, "0"], f"{self.folder}/{name}: No such file or directory")
        (self.folder / "sheet").mkdir()
        self.fails(["resolve", self.folder, "0"], f"{self.folder}/sheet: not a regular file")

    def test_more_words(self):
        self.fails(["resolve", self.folder, *self.files.words()[1:], "0"], "image': no number in hex")
        self.fails(["list", self.folder], "too few operands")
        self.fails(["list", self.folder, "0", "8"], "too many operands")


class TimeOfAccess(HostTest):
    DAY = 24 * 60 * 60 * 10**9

    def setUp(self):
        super().setUp()
        self.files = shipped_case(self.directory)
        self.map = self.write("map", bytes.fromhex("01b816010301"))
        for path in (*self.files.words(), self.map):
            now = path.stat().st_mtime_ns
            os.utime(path, ns=(now - 2 * self.DAY, now))

    def times(self):
        return [path.stat().st_atime_ns for path in (*self.files.words(), self.map)]

    def test_stays(self):
        before = self.times()
        for verb, *numbers in VERBS:
            run(verb, *self.files.words(), *numbers)
        run("lookup", self.map, "0xB38000")
        self.assertEqual(self.times(), before)
        self.files.image.read_bytes()
        if self.times() == before:
            self.skipTest("this file system records no time of access")

    def test_where_it_cannot_stay(self):
        """Who does not own the files may read them all the same."""
        how = self.as_nobody()
        words = ["resolve", *self.files.words(), "0xB38000"]
        self.says(words, ANSWERED, [place(0xB38000, 3, 0, 4)], **how)


class Names(HostTest):
    """A control character of a name stands as its number; what can be read stays."""

    NAMES = (
        (b"\x1b]0;title\x07image", r"\x1B]0;title\x07image"),
        (b"two\nlines\r\t\x7f", r"two\x0Alines\x0D\x09\x7F"),
        ("csi\x9b2J".encode(), r"csi\xC2\x9B2J"),
        (b"latin \xe4 cut \xe2\x82", r"latin \xE4 cut \xE2\x82"),
        (b"overlong \xc0\x9b \xe0\x82\x9b", r"overlong \xC0\x9B \xE0\x82\x9B"),
        (b"beyond \xed\xa0\x80 \xf4\x90\x80\x80", r"beyond \xED\xA0\x80 \xF4\x90\x80\x80"),
        ("Fälle/日本/\U0001f980/\xa0".replace("/", " ").encode(), "Fälle 日本 \U0001f980 \xa0"),
        (b"back\\slash %s %n", r"back\slash %s %n"),
    )

    def setUp(self):
        super().setUp()
        self.files = shipped_case(self.directory)

    def test_files(self):
        for name, shown in self.NAMES:
            name = self.directory / os.fsdecode(name)
            message = f"{self.directory}/{shown}: No such file or directory"
            self.fails(["resolve", self.files.sheet, name, self.files.pagefile, "0"], message)
            message = f"{self.directory}/{shown}/out: No such file or directory"
            self.fails(["page", *self.files.words(), "0x777B0000", "-o", name / "out"], message)
            name.mkdir()
            self.fails(["resolve", name, "0"], f"{self.directory}/{shown}/sheet: No such file or directory")

    def test_file_cut_short(self):
        """Told where the lost page is met, too."""
        for name, shown in self.NAMES[:2]:
            folder = self.directory / os.fsdecode(name)
            folder.mkdir()
            for length in (0, 1):
                talk = Conversation("resolve", *shipped_case(folder).words())
                talk.ask(b"0xB38000")
                os.truncate(folder / "image", length)
                status, _, error = talk.end(b"0xB38000")
                self.assertEqual(status, FAILED)
                self.assertRegex(error.decode(), r"\Aglintloom: [^\x00-\x1f]* was cut short[^\x00-\x1f]*\n\Z")
                self.assertIn(f"{self.directory}/{shown}/image: ", error.decode())

    def test_other_words(self):
        self.fails(["re\x1bsolve"], r"no verb 're\x1Bsolve'")
        self.fails(["resolve", "--\x1b"], r"no option '--\x1B'")
        self.fails(["resolve", *self.files.words(), "1\x9b"], r"'1\xC2\x9B': no number in hex")
