"""Damaged files and odd command lines, a few hundred with a fixed seed (tests/fuzz has no end); the shared library; another
compiler."""
import shutil
import subprocess

from cases import make_case, shipped_case
from damage import Damage
from library import Library
from misuse import Misuse
from program import ANSWERED, BUILT, FAILED, REFUSED, ROOT, HostTest

RUNS = 400
ODD_RUNS = 200
SEED = 1

LINKED = b"""
#include "glintloom.h"
int main(void) { return (int)glint_resolve(NULL, 0, NULL, 0, NULL, 0, 0).number; }
"""


class Damaged(HostTest):
    def test_damaged_files(self):
        damage = Damage(self.directory, SEED)
        for _ in range(RUNS):
            damage.step()
        for kind in ("sheet", "image", "pagefile", "map"):
            self.assertGreater(damage.met[kind], RUNS // 20, kind)

    def test_odd_command_lines_and_input(self):
        misuse = Misuse(self.directory, SEED)
        for _ in range(ODD_RUNS):
            misuse.step()
        for kind in ("arguments", "input"):
            for status in (ANSWERED, REFUSED, FAILED):
                self.assertGreater(misuse.met[f"{kind}, status {status}"], ODD_RUNS // 40, (kind, status))


class SharedLibrary(HostTest):
    def test_loaded(self):
        """The library answers by itself what make_case says."""
        case = [path.read_bytes() for path in shipped_case(self.directory).words()]
        library = Library()
        for address, line, _ in make_case.ANSWERS:
            self.assertEqual(" ".join(map(str, library.resolve(case, address))), line)

    def test_linked(self):
        """A program in C that is linked with it, with an empty case."""
        source, linked = self.write("linked.c", LINKED), ROOT / "target" / "tests" / "linked"
        linked.parent.mkdir(exist_ok=True)
        with_library = ["-I", ROOT / "include", "-L", BUILT, "-lglintloom", f"-Wl,-rpath,{BUILT}"]
        subprocess.run(["gcc", "-std=c11", "-o", linked, source, *with_library], check=True)
        self.assertEqual(subprocess.run([linked]).returncode, 10)


class Compilers(HostTest):
    def test_clang_is_content(self):
        if not shutil.which("clang"):
            self.skipTest("no clang")
        flags = ["-std=c11", "-D_XOPEN_SOURCE=700", "-Wall", "-Wextra", "-Werror", "-fsyntax-only", "-I", ROOT / "include"]
        subprocess.run(["clang", *flags, *sorted((ROOT / "host").glob("*.c"))], check=True)
