"""Command lines and standard input that nobody means so, run through the program over whole and damaged cases."""
import json
import os
import random
from collections import Counter

from cases import make_case
from damage import SANITIZER_WORDS, Fault, damaged
from expected import REFUSALS, place, time_line
from library import Library
from program import ANSWERED, FAILED, REFUSED, run

VERBS = ("sheet", "case", "resolve", "page", "read", "time", "map", "lookup", "processor-block", "list", "pool", "explain", "help")
OPTIONS = ("-o", "--json", "--no-pagefile", "--all", "--pages", "--", "-h", "--help", "--version", "-", "-oout", "--json=1")
OPTIONS += ("--plain", "--pae", "--cr3")
NUMBERS = ("0", "1", "0x", "-1", "00", "0x1000", "4096", "18446744073709551615", "18446744073709551616", "fffff8a0`02bd2ed8")
RANGES = ("0x1000+0x9E000", "0x1000-0x9EFFF", "4096-8192", "1+1", "0+0", "+", "-", "0x1000+", "0x1000-0xFFF", "0-0xFFFFFFFFFFFFFFFF")

# The refusals of a case or a map as a whole.
WHOLE_REFUSALS = (*range(10, 17), 18, 43)


class Misuse:
    """Runs one odd command line or input after the other, in a directory where it may write what it likes."""

    def __init__(self, directory, seed):
        self.chance, self.library, self.met = random.Random(seed), Library(), Counter()
        self.paths = [directory / name for name in ("sheet", "image", "pagefile", "map")]
        self.scratch = directory / "scratch"
        self.scratch.mkdir()
        self.addresses = [address for address, _, _ in make_case.ANSWERS]
        case = [make_case.sheet(), make_case.image(), make_case.pagefile()]
        self.whole = [*case, self.library.map(case, 0xB34000, 16)[1]]

    def step(self):
        """One command line, or one input."""
        self.content = [damaged(part, self.chance) if self.chance.randrange(4) == 0 else part for part in self.whole]
        for path, content in zip(self.paths, self.content):
            path.write_bytes(content)
        self.chance.choice((self.arguments, self.input))()

    def number(self):
        return self.chance.choice((*self.addresses, self.chance.getrandbits(64), self.chance.getrandbits(13)))

    def written(self, number):
        """A form of a number that the program takes, and that can be meant in one way only."""
        decimal = f"{number}" if number < 10**15 else f"0x{number:x}"
        return self.chance.choice((decimal, f"0x{number:x}", f"0x{number:X}", f"0X{number:016X}"))

    def junk(self):
        """Bytes that are no number and, having no slash, no file outside the directory."""
        length = self.chance.choice((0, 1, 7, 100, 300))
        return bytes(self.chance.choice(b" \t\rz0x~\x01\x1b\x7f\x80\xff%") for _ in range(length)) + b"z"

    def word(self):
        return self.chance.choice(
            (
                *map(str, self.paths),
                str(self.scratch),
                self.chance.choice(VERBS),
                self.chance.choice(OPTIONS),
                self.chance.choice(NUMBERS),
                self.chance.choice(RANGES),
                self.written(self.number()),
                os.fsdecode(self.junk()),
                "",
            )
        )

    def command_line(self):
        """One that is right, with some words changed; or words by chance alone."""
        if self.chance.randrange(8) == 0:
            return [self.word() for _ in range(self.chance.randrange(8))]
        verb = self.chance.choice(VERBS)
        files = [] if verb in ("sheet", "explain", "help") else self.paths[3:] if verb == "lookup" else self.paths[:3]
        counts = {"read": (2,), "map": (2,), "list": (1,), "processor-block": (0, 1), "help": (0,)}
        numbers = self.chance.choice(counts.get(verb, (0, 1, 2, 5)))
        options = self.chance.choice(([], ["--json"]))
        words = [verb, *options, *map(str, files), *(self.written(self.number()) for _ in range(numbers))]
        if verb == "map":
            words[-1] = str(self.chance.randrange(64))
        for _ in range(self.chance.choice((0, 0, 1, 1, 2, 4))):
            at = self.chance.randrange(len(words) + 1)
            words[at : at + self.chance.randrange(3)] = [self.word()] * self.chance.randrange(3)
        if self.chance.randrange(6) == 0:
            del words[self.chance.randrange(len(words) + 1) :]
        return words

    def judge(self, words, done, kind):
        """What holds of every run, whatever it was asked."""
        self.met[f"{kind}, status {done.returncode}"] += 1
        told = done.stderr.decode(errors="replace")
        if done.returncode not in (ANSWERED, REFUSED, FAILED) or any(word in done.stderr for word in SANITIZER_WORDS):
            raise Fault(f"{words}: exit status {done.returncode}\n{told}")
        if done.returncode == FAILED and "glintloom" not in told:
            raise Fault(f"{words}: exit status 2 and no word of the program on standard error: {told}")

    def arguments(self):
        words = self.command_line()
        lines = "".join(self.written(self.number()) + "\n" for _ in range(self.chance.randrange(3)))
        done = run(*words, input=lines.encode(), cwd=self.scratch)
        self.judge(words, done, "arguments")
        if any(word.startswith("-o") for word in words):
            return
        if done.returncode != FAILED and done.stdout.startswith(b"{"):
            json.loads(done.stdout)
        if [path.read_bytes() for path in self.paths] != self.content:
            raise Fault(f"{words}: changed a file of the case")

    def line(self, address):
        """An address with blanks around it, and blank lines before it."""
        blanks = [self.chance.choice(("", "", " ", "\t", " \t\r")) for _ in range(3)]
        return f"{blanks[0]}\n" * self.chance.choice((0, 0, 1)) + f"{blanks[1]}{self.written(address)}{blanks[2]}"

    def answer(self, verb, address):
        """The number and the line that a verb shows for an address."""
        if verb == "lookup":
            number, offset = self.library.lookup(self.content[3], address)
            return number, place(address, number, offset)
        if verb == "time":
            number, seconds, ticks = self.library.read_time(self.content[:3], address)
            zeros = self.library.read(self.content[:3], address, 8)[2]
            return number, time_line(address, number, int(seconds), int(ticks), zeros)
        number, offset, entries = self.library.resolve(self.content[:3], address)
        return number, place(address, number, offset, entries)

    def input(self):
        """Addresses on standard input: those before the first line that is none are answered."""
        verb = self.chance.choice(("resolve", "lookup", "page", "time"))
        files = self.paths[3:] if verb == "lookup" else self.paths[:3]
        addresses = [self.number() for _ in range(self.chance.choice((0, 1, 3, 30)))]
        lines = [self.line(address).encode() for address in addresses]
        right = self.chance.randrange(2) == 0
        if not right:
            after = self.chance.randrange(len(lines) + 1)
            lines[after:after], addresses = [self.junk()], addresses[:after]
        text = b"\n".join(lines) + self.chance.choice((b"", b"\n", b"\r\n\n"))
        done = run(verb, *files, input=text)
        self.judge((verb, text), done, "input")
        answers = [self.answer(verb, address) for address in addresses]
        # A case or a map that is refused as a whole may be told in other words; a page has its bytes too.
        if verb == "page" or self.answer(verb, 0)[0] in WHOLE_REFUSALS:
            return
        status = FAILED if not right else REFUSED if any(number in REFUSALS for number, _ in answers) else ANSWERED
        shown = "".join(line + "\n" for _, line in answers).encode()
        if (done.returncode, done.stdout) != (status, shown):
            raise Fault(f"{verb}, input {text}: exit status {done.returncode}, shown {done.stdout}, expected {shown}")
