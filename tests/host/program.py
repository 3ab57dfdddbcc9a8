"""Runs the host program as a person does."""
import functools
import json
import os
import platform
import re
import resource
import shutil
import subprocess
import tempfile
import threading
import unittest
from pathlib import Path

ROOT = Path(__file__).resolve().parent.parent.parent
BUILT = ROOT / "target" / "host"

ANSWERED, REFUSED, FAILED = 0, 1, 2

NOBODY = 65534

# Huge lengths must reach the program as memory that cannot be had, also under the sanitizers.
ENVIRONMENT = dict(os.environ, ASAN_OPTIONS="allocator_may_return_null=1", LC_ALL="C")
SANITIZER_NOTE = re.compile(rb"==\d+==WARNING: AddressSanitizer failed to allocate[^\n]*\n")


SANITIZED = BUILT / "glintloom-sanitized"


class Program:
    """The build under test; the runner sets it."""

    path = BUILT / "glintloom"


@functools.cache
def without_random_addresses():
    """The command that turns random addresses off, where there is one: gcc 12's ASan dies of some of them."""
    prefix = ["setarch", platform.machine(), "-R"]
    try:
        works = subprocess.run([*prefix, "true"], capture_output=True).returncode == 0
    except OSError:
        works = False
    return prefix if works else []


def command(*words, copy=None):
    """The program, or a copy of it, with these words."""
    prefix = without_random_addresses() if Program.path == SANITIZED else []
    return [*prefix, str(copy or Program.path), *map(str, words)]


def run_redirected(redirections, *words):
    """Runs with standard descriptors redirected or closed by the shell."""
    shell = ["sh", "-c", f'exec "$@" {redirections}', "sh"]
    return subprocess.run(shell + command(*words), capture_output=True, env=ENVIRONMENT, timeout=60)


def run(*words, copy=None, **how):
    """Runs with these words; standard output and error are kept as bytes."""
    if "input" not in how:
        how.setdefault("stdin", subprocess.DEVNULL)
    how.setdefault("stdout", subprocess.PIPE)
    how.setdefault("env", ENVIRONMENT)
    done = subprocess.run(command(*words, copy=copy), stderr=subprocess.PIPE, timeout=60, **how)
    done.stderr = SANITIZER_NOTE.sub(b"", done.stderr)
    return done


def with_little_memory(length):
    """How to run so that `length` bytes can be mapped but not allocated too."""
    if Program.path == SANITIZED:
        options = f"{ENVIRONMENT['ASAN_OPTIONS']}:max_allocation_size_mb={length >> 21}"
        return {"env": dict(ENVIRONMENT, ASAN_OPTIONS=options)}
    limit = (length + length // 2,) * 2
    return {"preexec_fn": lambda: resource.setrlimit(resource.RLIMIT_AS, limit)}


class Conversation:
    """A run that is asked by standard input; ended after a while if it does not answer."""

    def __init__(self, *words, **how):
        how = {"stdin": subprocess.PIPE, "stdout": subprocess.PIPE, "stderr": subprocess.PIPE, **how}
        self.child = subprocess.Popen(command(*words), env=ENVIRONMENT, **how)
        self.patience = threading.Timer(60, self.child.kill)
        self.patience.start()

    def send(self, address):
        self.child.stdin.write(address + b"\n")
        self.child.stdin.flush()

    def ask(self, address):
        """The line that answers an address."""
        self.send(address)
        return self.child.stdout.readline()

    def shown_until(self, text):
        """What is shown up to this text and no further."""
        shown, byte = b"", b" "
        while byte and not shown.endswith(text):
            byte = self.child.stdout.read(1)
            shown += byte
        return shown

    def end(self, address=b""):
        """Status, output and error text after a last address."""
        out, error = self.child.communicate(address + b"\n")
        self.patience.cancel()
        return self.child.returncode, out, error


class HostTest(unittest.TestCase):
    """A test with a directory of its own, and with claims about whole runs."""

    def setUp(self):
        directory = tempfile.TemporaryDirectory(prefix="glintloom-test-")
        self.addCleanup(directory.cleanup)
        self.directory = Path(directory.name).resolve()

    def write(self, name, content):
        path = self.directory / name
        path.write_bytes(content)
        return path

    def as_nobody(self):
        """How to run without root's rights: from a copy of the program in a directory that all may use."""
        if os.geteuid() != 0:
            return {}
        copy, become_nobody = self.directory / "glintloom", lambda: os.setuid(NOBODY)
        shutil.copy(Program.path, copy)
        self.directory.chmod(0o777)
        try:
            subprocess.run([copy, "help"], capture_output=True, preexec_fn=become_nobody)
        except (OSError, subprocess.SubprocessError):
            self.skipTest("nobody cannot run a copy of the program here")
        return {"copy": copy, "preexec_fn": become_nobody}

    def says(self, words, status, out, **how):
        """The run ends so, prints exactly these lines, and nothing on standard error."""
        done = run(*words, **how)
        self.assertEqual((done.stderr, done.returncode), (b"", status))
        shown = done.stdout.decode().splitlines(keepends=True)
        # Line by line: unittest's comparison of long texts takes minutes.
        for line, expected in zip(shown, out):
            self.assertEqual(line, expected + "\n")
        self.assertEqual(len(shown), len(out))

    def fails(self, words, message, **how):
        """Exit status 2, nothing on standard output, and one line on standard error that has this message."""
        done = run(*words, **how)
        self.assertEqual((done.stdout or b"", done.returncode), (b"", FAILED), done.stderr)
        self.assertRegex(done.stderr.decode(), r"\Aglintloom: [^\n]*\n\Z")
        self.assertIn(message, done.stderr.decode())

    def answers(self, *words, status=ANSWERED):
        """The answers of a JSON document, which must be valid and whole."""
        done = run(words[0], "--json", *words[1:])
        self.assertEqual((done.stderr, done.returncode), (b"", status))
        document = json.loads(done.stdout)
        self.assertEqual((list(document), document["verb"]), (["verb", "answers"], words[0]))
        return document["answers"]
