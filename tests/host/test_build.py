"""What host/build takes from its environment, and what it makes. The build under ASan and UBSan has other flags."""
import os
import subprocess

from program import BUILT, ROOT, HostTest, Program

HARDENING = {"-D_FORTIFY_SOURCE=2", "-fstack-protector-strong", "-fPIE", "-pie", "-Wl,-z,relro", "-Wl,-z,now"}

# Notes the words that it is called with, and compiles nothing.
RECORDER = b"""#!/bin/sh
printf '%s ' "$@" >>"$RECORD"
echo >>"$RECORD"
"""


class BuildTest(HostTest):
    def setUp(self):
        super().setUp()
        if Program.path != BUILT / "glintloom":
            self.skipTest("tried once, with the normal build")


class Environment(BuildTest):
    def calls(self, **variables):
        """The words of each call of the compiler; `rt` is not run."""
        for name in ("rt", "recorder"):
            self.write(name, RECORDER).chmod(0o755)
        record = self.directory / "record"
        record.unlink(missing_ok=True)
        kept = {name: value for name, value in os.environ.items() if name not in ("CC", "CFLAGS", "LDFLAGS")}
        path = f"{self.directory}:{os.environ['PATH']}"
        env = {**kept, "PATH": path, "RECORD": str(record), "CC": str(self.directory / "recorder"), **variables}
        subprocess.run([ROOT / "host" / "build"], env=env, check=True)
        return [line.split() for line in record.read_text().splitlines() if line.split() != ["lib"]]

    def test_nothing_given(self):
        program = self.calls()[0]
        self.assertIn("target/host/glintloom", program)
        self.assertLessEqual(HARDENING, set(program))
        for words in self.calls():
            self.assertNotIn("-Werror", words)

    def test_flags(self):
        calls = self.calls(CFLAGS="-O1 -DMINE", LDFLAGS="-Wl,-z,lazy -L/mine")
        program = calls[0]
        self.assertLessEqual(HARDENING, set(program))
        self.assertLess(program.index("-O2"), program.index("-O1"))
        self.assertIn("-DMINE", program)
        for words in (words for words in calls if "-pie" in words or "-shared" in words):
            self.assertLess(words.index("-Wl,-z,now"), words.index("-Wl,-z,lazy"))
            self.assertIn("-L/mine", words)

    def test_compiler_of_several_words(self):
        self.assertEqual(self.calls(CC=f"{self.directory}/recorder --mine")[0][0], "--mine")


class Hardened(BuildTest):
    def read(self, name, *options):
        return subprocess.run(["readelf", "-W", *options, BUILT / name], capture_output=True, text=True, check=True).stdout

    def test_program(self):
        self.assertIn("DYN (Position-Independent Executable file)", self.read("glintloom", "-h"))
        symbols = self.read("glintloom", "--dyn-syms")
        self.assertIn("__stack_chk_fail", symbols)
        self.assertRegex(symbols, r"__v?f?s?n?printf_chk")

    def test_program_and_library(self):
        for name in ("glintloom", "libglintloom.so"):
            self.assertIn("GNU_RELRO", self.read(name, "-l"))
            self.assertRegex(self.read(name, "-l"), r"GNU_STACK .* RW ")
            self.assertRegex(self.read(name, "-d"), r"FLAGS_1.*NOW")
