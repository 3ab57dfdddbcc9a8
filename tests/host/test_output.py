"""Output files: whole or as they were, on refusals and failing writes; standard output as one."""
import json
import os
import resource
import subprocess

from cases import PAGE, shipped_case
from program import ANSWERED, FAILED, NOBODY, REFUSED, HostTest, run, run_redirected

MARK = "page of zeros, by the tables"


class OutputFiles(HostTest):
    def setUp(self):
        super().setUp()
        self.files = shipped_case(self.directory)
        self.case = self.files.words()
        self.out = self.directory / "results" / "out"
        self.out.parent.mkdir()
        self.image_page = self.files.image.read_bytes()[0x5000:0x6000]
        self.line = "0x00000000777B0000   1 found in the image, offset 0x5000, 9 entries read\n"

    def writes(self, words, content, marks=()):
        """The file is written, with these lengths at addresses marked as of zeros, and it is all that is left."""
        done = run(*words, "-o", self.out)
        warned = "".join(f"glintloom: 0x{address:016X}: {MARK}, 0x{length:X} bytes\n" for address, length in marks)
        self.assertEqual((done.stderr.decode(), done.returncode), (warned, ANSWERED))
        self.assertEqual(self.out.read_bytes(), content)
        self.assertEqual(os.listdir(self.out.parent), ["out"])
        return done.stdout.decode()

    def test_page(self):
        self.assertEqual(self.writes(["page", *self.case, "0x777B0123"], self.image_page), self.line)

    def test_page_of_zeros_is_marked(self):
        self.writes(["page", *self.case, "0xB38001"], bytes(PAGE), [(0xB38000, PAGE)])

    def test_read_marks_pages_of_zeros(self):
        line = self.writes(["read", *self.case, "0xB37FFE", "5"], bytes(5), [(0xB38000, 3)])
        self.assertEqual(line.splitlines()[0], "0x0000000000B37FFE   0 done, 0x5 bytes")
        self.writes(["read", *self.case, "0x777B0000", "3"], b"MZ\x90")
        self.writes(["read", *self.case, "0x777B0000", "0"], b"")

    def test_two_pages_of_zeros(self):
        self.writes(["read", *self.case, "0xB42FFF", "2"], bytes(2), [(0xB42FFF, 2)])

    def test_map(self):
        self.writes(["map", *self.case, "0xB38000", "1"], bytes.fromhex("01b816010301"))

    def test_json_beside_a_file(self):
        answer = self.answers("page", *self.case, "0x777B0000", "-o", self.out)[0]
        self.assertNotIn("bytes", answer)
        self.assertEqual((answer["number"], self.out.read_bytes()), (1, self.image_page))

    def refused(self):
        return (
            ["page", *self.case, "0x1D0000"],
            ["read", *self.case, "0xB38FFF", "2"],
            ["read", *self.case, "0x1D0000", "1"],
            ["map", *self.case, "0xB34001", "1"],
            ["map", self.case[1], *self.case[1:], "0xB34000", "1"],
            ["page", self.case[0], self.case[2], self.case[2], "0x777B0000"],
        )

    def test_refusal_makes_no_file(self):
        for words in self.refused():
            done = run(*words, "-o", self.out)
            self.assertEqual((done.returncode, done.stderr, os.listdir(self.out.parent)), (REFUSED, b"", []))
            self.assertRegex(done.stdout, rb"\A(0x[0-9A-F]{16}|case {14})  \d\d refused: [^\n]*\n\Z")

    def test_refusal_keeps_the_file(self):
        self.out.write_bytes(b"as it was")
        for words in self.refused():
            self.assertEqual(run(*words, "-o", self.out).returncode, REFUSED)
            self.assertEqual(self.out.read_bytes(), b"as it was")

    def test_modes(self):
        words = ["page", *self.case, "0x777B0000"]
        run(*words, "-o", self.out, preexec_fn=lambda: os.umask(0o027))
        self.assertEqual(self.out.stat().st_mode & 0o777, 0o640)
        self.out.chmod(0o604)
        self.writes(words, self.image_page)
        self.assertEqual(self.out.stat().st_mode & 0o777, 0o604)

    def test_setuid_is_not_kept(self):
        if os.geteuid() != 0:
            self.skipTest("only root can replace another's file and keep its owner")
        self.out.write_bytes(b"old")
        os.chown(self.out, NOBODY, NOBODY)
        self.out.chmod(0o6755)
        self.writes(["page", *self.case, "0x777B0000"], self.image_page)
        status = self.out.stat()
        self.assertEqual((status.st_uid, status.st_gid, status.st_mode & 0o7777), (NOBODY, NOBODY, 0o755))

    def test_owner_that_cannot_be_kept(self):
        if os.geteuid() != 0:
            self.skipTest("only root can make a file of another owner")
        self.out.write_bytes(b"as it was")
        self.out.chmod(0o666)
        self.out.parent.chmod(0o777)
        self.fails(["page", *self.case, "0x777B0000", "-o", self.out], "out: Operation not permitted", **self.as_nobody())
        self.assertEqual((os.listdir(self.out.parent), self.out.read_bytes()), (["out"], b"as it was"))

    def test_link_stays_one(self):
        target = self.write("target", b"old")
        self.out.symlink_to(target)
        self.writes(["page", *self.case, "0x777B0000"], self.image_page)
        self.assertEqual((self.out.is_symlink(), target.read_bytes()), (True, self.image_page))

    def test_link_to_nothing_stays_one(self):
        self.out.symlink_to(self.directory / "missing")
        words = ["page", *self.case, "0x777B0000", "-o", self.out]
        self.fails(words, "out: is a symbolic link to a file that is not there")
        self.assertEqual((os.listdir(self.out.parent), os.path.lexists(self.directory / "missing")), (["out"], False))
        self.assertTrue(self.out.is_symlink())

    def test_standard_output_and_error_that_are_no_files(self):
        """Pipes: the bytes would stand among the report, the messages or the addresses."""
        words = ["page", *self.case, "0x777B0000", "-o"]
        for name in ("/dev/stdout", "/dev/fd/1", "/proc/self/fd/1"):
            self.fails([*words, name], f"{name}: is standard output, which -o - writes to")
        for name in ("/dev/stderr", "/dev/fd/2"):
            self.fails([*words, name], f"{name}: is standard error")
        self.fails([*words, "/dev/stdin"], "/dev/stdin: is standard input", input=b"")

    def open_on(self, redirection, number, name):
        """The file that the shell opens keeps what it had; it is refused by its descriptor, by any name."""
        self.out.write_bytes(b"as it was\n")
        done = run_redirected(f"{redirection} '{self.out}'", "page", *self.case, "0x777B0000", "-o", name)
        told = f"glintloom: {name}: is open on descriptor {number}, and is not replaced\n".encode()
        kept = b"" if redirection == ">" else b"as it was\n"
        in_file, on_error = (kept + told, b"") if number == 2 else (kept, told)
        self.assertEqual((done.returncode, done.stdout, done.stderr), (FAILED, b"", on_error))
        self.assertEqual((os.listdir(self.out.parent), self.out.read_bytes()), (["out"], in_file))

    def test_files_that_are_open(self):
        for redirection, number in (("<", 0), (">", 1), (">>", 1), ("2>>", 2), ("5<", 5), ("5>>", 5), ("7<>", 7)):
            self.open_on(redirection, number, f"/dev/fd/{number}")
        for redirection, number, name in (("<", 0, "/dev/stdin"), (">>", 1, "/dev/stdout"), ("2>>", 2, "/dev/stderr")):
            self.open_on(redirection, number, name)
            self.open_on(redirection, number, self.out)
        link, hard_link = self.directory / "link", self.directory / "hard_link"
        link.symlink_to("/dev/fd/5")
        os.link(self.out, hard_link)
        for name in (link, hard_link, self.out):
            self.open_on("5<", 5, name)

    def test_file_that_is_open_and_gone(self):
        with self.write("gone", b"as it was").open("rb") as file:
            os.unlink(file.name)
            name = f"/dev/fd/{file.fileno()}"
            words = ["page", *self.case, "0x777B0000", "-o", name]
            self.fails(words, f"{name}: is open on descriptor", pass_fds=[file.fileno()])

    def test_null_device(self):
        """Whatever else leads there, and by any name."""
        link = self.directory / "link"
        link.symlink_to("/dev/null")
        words = ["page", *self.case, "0x777B0000", "-o"]
        for redirections in ("</dev/null", "2>/dev/null", "2>&-", "5</dev/null"):
            done = run_redirected(redirections, *words, link)
            self.assertEqual((done.returncode, done.stdout, done.stderr), (ANSWERED, self.line.encode(), b""))
        for name in ("/dev/null", link, "/dev/stdout", "/dev/fd/1"):
            done = run_redirected(">/dev/null 2>/dev/null", *words, name)
            self.assertEqual((done.returncode, done.stdout, done.stderr), (ANSWERED, b"", b""))

    def test_standard_output_by_its_option(self):
        """Raw bytes there, the report on standard error."""
        for words in (["page", *self.case, "0x777B0123", "-o", "-"], ["-o-", "page", *self.case, "0x777B0123"]):
            done = run(*words)
            self.assertEqual((done.returncode, done.stdout, done.stderr.decode()), (ANSWERED, self.image_page, self.line))
        done = run("map", *self.case, "0xB38000", "1", "-o", "-")
        self.assertEqual((done.returncode, done.stdout), (ANSWERED, bytes.fromhex("01b816010301")))
        done = run("read", *self.case, "0xB37FFE", "5", "-o", "-")
        self.assertEqual((done.returncode, done.stdout), (ANSWERED, bytes(5)))
        mark, first, *_ = done.stderr.decode().splitlines()
        self.assertEqual(mark, f"glintloom: 0x0000000000B38000: {MARK}, 0x3 bytes")
        self.assertEqual(first, "0x0000000000B37FFE   0 done, 0x5 bytes")
        done = run("page", "--json", *self.case, "0x777B0000", "-o", "-")
        self.assertEqual((done.stdout, json.loads(done.stderr)["answers"][0]["number"]), (self.image_page, 1))

    def test_standard_output_on_a_refusal(self):
        done = run("read", *self.case, "0xB38FFF", "2", "-o", "-")
        self.assertEqual((done.returncode, done.stdout), (REFUSED, b""))
        self.assertRegex(done.stderr, rb"\A0x0000000000B38FFF  22 refused: [^\n]*, first at 0x0000000000B39000\n\Z")

    def test_standard_output_that_cannot_take_the_bytes(self):
        words = ["page", *self.case, "0x777B0000", "-o", "-"]
        for redirection, message in (
            (">/dev/full", "No space left on device"),
            (">&-", "Bad file descriptor"),
            (f">>'{self.case[1]}'", "is an input file, and is not written over"),
        ):
            before = self.case[1].read_bytes()
            done = run_redirected(redirection, *words)
            self.assertEqual((done.returncode, done.stderr.decode()), (FAILED, f"glintloom: standard output: {message}\n"))
            self.assertEqual(self.case[1].read_bytes(), before)
        kept = self.write("kept", b"before ")
        self.assertEqual(run_redirected(f">>'{kept}'", *words).returncode, ANSWERED)
        self.assertEqual(kept.read_bytes(), b"before " + self.image_page)

    def test_zeros_that_cannot_be_marked(self):
        """No file is made if nobody is told of its zeros."""
        for redirection in ("2>/dev/full", "2>&-"):
            for words in (["page", *self.case, "0xB38000"], ["read", *self.case, "0xB37FFE", "5"]):
                done = run_redirected(redirection, *words, "-o", self.out)
                self.assertEqual((done.returncode, done.stdout, os.listdir(self.out.parent)), (FAILED, b"", []))

    def test_name_in_the_working_directory(self):
        done = run("page", *self.case, "0x777B0000", "-o", "out", cwd=self.out.parent)
        self.assertEqual((done.returncode, self.out.read_bytes()), (ANSWERED, self.image_page))

    def test_places_that_cannot_be_written(self):
        words = ["page", *self.case, "0x777B0000", "-o"]
        self.fails([*words, self.directory / "missing" / "out"], "missing/out: No such file or directory")
        self.fails([*words, self.out.parent], "Is a directory")
        self.fails([*words, self.case[0] / "out"], "Not a directory")
        self.fails([*words, ""], "No such file or directory")
        self.fails([*words, self.out.parent / ("n" * 300)], "File name too long")
        self.fails([*words, "/dev/full"], "/dev/full: No space left on device")
        self.assertEqual(os.listdir(self.out.parent), [])

    def test_input_files_are_not_written_over(self):
        hard_link = self.directory / "hard_link"
        os.link(self.files.image, hard_link)
        for name in (*self.case, hard_link):
            before = name.read_bytes()
            self.fails(["read", *self.case, "0x777B0000", "2", "-o", name], "is an input file")
            self.assertEqual(name.read_bytes(), before)

    def test_full_disk_keeps_the_file(self):
        limit = lambda: resource.setrlimit(resource.RLIMIT_FSIZE, (1024, 1024))
        words = ["page", *self.case, "0x777B0000", "-o", self.out]
        self.fails(words, "out: File too large", preexec_fn=limit)
        self.assertEqual(os.listdir(self.out.parent), [])
        self.out.write_bytes(b"as it was")
        self.fails(words, "out: File too large", preexec_fn=limit)
        self.assertEqual((os.listdir(self.out.parent), self.out.read_bytes()), (["out"], b"as it was"))

    def test_protected_file_stays(self):
        self.out.write_bytes(b"as it was")
        self.out.chmod(0o444)
        self.out.parent.chmod(0o777)
        self.fails(["page", *self.case, "0x777B0000", "-o", self.out], "out: Permission denied", **self.as_nobody())
        self.assertEqual((os.listdir(self.out.parent), self.out.read_bytes()), (["out"], b"as it was"))

    def test_pipe_as_output(self):
        os.mkfifo(self.out)
        with subprocess.Popen(["cat", self.out], stdout=subprocess.PIPE) as reader:
            self.assertEqual(run("read", *self.case, "0x777B0000", "2", "-o", self.out).returncode, ANSWERED)
            self.assertEqual(reader.stdout.read(), b"MZ")
