"""The library as programs in C use it: what it exports, its version and words, and an installed copy. Built once, so it is
not tried again with the program under ASan and UBSan."""
import ctypes
import os
import re
import shlex
import subprocess

from cases import SHIPPED
from expected import WORDS, shipped_answers
from program import BUILT, ROOT, HostTest, Program

HEADER = (ROOT / "include" / "glintloom.h").read_text()
VERSION = ".".join(re.search(rf"^#define GLINT_VERSION_{part} (\d+)$", HEADER, re.M)[1] for part in ("MAJOR", "MINOR", "PATCH"))
SONAME = "libglintloom.so." + VERSION.split(".")[0]

INSTALLED = {
    "bin/glintloom",
    "include/glintloom.h",
    "lib/libglintloom.a",
    "lib/libglintloom.so",
    f"lib/{SONAME}",
    f"lib/libglintloom.so.{VERSION}",
    "lib/pkgconfig/glintloom.pc",
    "share/bash-completion/completions/glintloom",
    "share/man/man1/glintloom.1",
}


def output(*words, **how):
    return subprocess.run(list(map(str, words)), check=True, capture_output=True, text=True, **how).stdout


def files_below(directory):
    return {str(path.relative_to(directory)) for path in directory.rglob("*") if not path.is_dir()}


class LibraryTest(HostTest):
    def setUp(self):
        super().setUp()
        if Program.path != BUILT / "glintloom":
            self.skipTest("the library has its own build")


class Exports(LibraryTest):
    def test_exports_are_those_of_the_header(self):
        declared = re.findall(r"\b(glint_\w+)\([^)]*\);", re.sub(r"/\*.*?\*/", "", HEADER, flags=re.S))
        self.assertGreater(len(declared), 8)
        listed = output("nm", "-D", "--defined-only", BUILT / "libglintloom.so")
        self.assertEqual(re.findall(r" [A-Za-z] (\S+)$", listed, re.M), sorted(declared))
        listed = output("nm", "-g", "--defined-only", BUILT / "libglintloom.a")
        self.assertEqual(sorted(re.findall(r" T (\S+)$", listed, re.M)), sorted(declared))

    def test_name_and_version(self):
        self.assertRegex(output("readelf", "-d", BUILT / "libglintloom.so"), rf"SONAME.*\[{re.escape(SONAME)}\]")
        library = ctypes.CDLL(str(BUILT / SONAME))
        library.glint_version.restype = ctypes.c_char_p
        self.assertEqual(library.glint_version().decode(), VERSION)

    def test_words_of_every_number(self):
        words = ctypes.CDLL(str(BUILT / "libglintloom.so")).glint_words
        words.restype, words.argtypes = ctypes.c_char_p, [ctypes.c_uint64]
        for number in (*range(256), 2**32 + 22, 2**64 - 1):
            self.assertEqual(words(number), WORDS[number].encode() if number in WORDS else None)


class Installed(LibraryTest):
    def setUp(self):
        super().setUp()
        self.prefix = self.directory / "a prefix"
        subprocess.run([ROOT / "host" / "install", self.prefix], check=True)

    def package(self, *words):
        with_path = dict(os.environ, PKG_CONFIG_PATH=str(self.prefix / "lib" / "pkgconfig"))
        return output("pkg-config", *words, "glintloom", env=with_path)

    def build(self, *flags):
        """The small program, with what pkg-config says and nothing else of ours."""
        built = self.directory / "uses_library"
        said = shlex.split(self.package("--cflags", "--libs"))
        source = ROOT / "tests" / "host" / "uses_library.c"
        subprocess.run(["gcc", "-std=c11", "-Wall", "-Wextra", "-Werror", "-o", built, source, *said, *flags], check=True)
        return built

    def answers_as_shipped(self, built):
        search = dict(os.environ, LD_LIBRARY_PATH=str(self.prefix / "lib"))
        for address, number, offset, entries in shipped_answers():
            shown = output(built, *(SHIPPED / name for name in ("sheet", "image", "pagefile")), hex(address), env=search)
            self.assertEqual(shown, f"{VERSION}\n{number} {offset} {entries} {WORDS[number]}\n")

    def test_files(self):
        self.assertEqual(files_below(self.prefix), INSTALLED)
        self.assertEqual(os.readlink(self.prefix / "lib" / "libglintloom.so"), SONAME)
        self.assertEqual(os.readlink(self.prefix / "lib" / SONAME), f"libglintloom.so.{VERSION}")
        for name, source in (
            ("include/glintloom.h", ROOT / "include" / "glintloom.h"),
            ("share/man/man1/glintloom.1", ROOT / "host" / "glintloom.1"),
        ):
            self.assertEqual((self.prefix / name).read_bytes(), source.read_bytes())

    def test_installed_program(self):
        self.assertEqual(output(self.prefix / "bin" / "glintloom", "explain"), output(BUILT / "glintloom", "explain"))

    def test_a_program_built_with_pkg_config(self):
        self.assertEqual(self.package("--modversion"), VERSION + "\n")
        built = self.build()
        self.assertIn(f"[{SONAME}]", output("readelf", "-d", built))
        self.answers_as_shipped(built)

    def test_a_program_with_the_archive(self):
        built = self.build("-static")
        self.assertNotIn("NEEDED", output("readelf", "-d", built))
        self.answers_as_shipped(built)

    def test_below_another_directory(self):
        """DESTDIR is not part of what the installed files name."""
        root = self.directory / "root"
        subprocess.run([ROOT / "host" / "install", "/opt/glintloom"], env=dict(os.environ, DESTDIR=str(root)), check=True)
        self.assertEqual(files_below(root / "opt" / "glintloom"), INSTALLED)
        text = (root / "opt" / "glintloom" / "lib" / "pkgconfig" / "glintloom.pc").read_text()
        self.assertEqual(text.splitlines()[0], "prefix=/opt/glintloom")

    def test_wrong_use(self):
        for words in ([], [""], ["a", "b"]):
            done = subprocess.run([ROOT / "host" / "install", *words], capture_output=True, cwd=self.directory)
            self.assertEqual((done.returncode, done.stderr), (2, b"usage: host/install PREFIX\n"))


class Completion(LibraryTest):
    COMPLETE = """
    source "$1"
    COMP_WORDS=("${@:2}") COMP_CWORD=$(($# - 2))
    _glintloom "$2" "${@: -1}" "${COMP_WORDS[COMP_CWORD - 1]}"
    printf '%s\\n' "${COMPREPLY[@]}"
    """

    def completed(self, *words):
        script = ROOT / "host" / "completion.bash"
        return output("bash", "-c", self.COMPLETE, "bash", script, BUILT / "glintloom", *words).split()

    def test_verbs(self):
        self.assertEqual(self.completed("re"), ["resolve", "read"])
        self.assertEqual(self.completed("--json", "pro"), ["processor-block"])
        self.assertEqual(self.completed("ti"), ["time"])
        self.assertLessEqual({"resolve", "page", "read", "map", "lookup", "list", "explain", "help"}, set(self.completed("")))

    def test_options(self):
        self.assertEqual(self.completed("read", "--no"), ["--no-pagefile"])
        self.assertEqual(self.completed("sheet", "--c"), ["--cr3"])
        self.assertEqual(self.completed("sheet", "--p"), ["--pages", "--plain", "--pae"])
        self.assertLessEqual({"-o", "--all", "--json", "--no-pagefile"}, set(self.completed("read", "-")))

    def test_numbers(self):
        self.assertEqual(self.completed("explain", ""), [str(number) for number in WORDS])

    def test_files_are_left_to_bash(self):
        for words in (["resolve", ""], ["resolve", "im"], ["page", "a", "b", "c", "0", "-o", ""], ["page", "-o", "re"]):
            self.assertEqual(self.completed(*words), [])
