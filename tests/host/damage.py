"""Damaged cases and maps, run through the program and compared with what the shared library answers for them."""
import json
import random
from collections import Counter

from cases import PAGE, SHIPPED, block_case, list_case, make_case, pool_page
from expected import PROFILES, REFUSALS
from library import Library
from program import run

MAP_PAGES = 16
CASE_FAULTS, MAP_FAULTS = (*range(10, 17), 18), (10, 11, 12, 14, 18, 43)
SANITIZER_WORDS = (b"Sanitizer", b"runtime error")


class Fault(Exception):
    """The program ended, or answered, otherwise than it must."""


def damaged(content, chance):
    """Some bytes changed, or the end cut or lengthened."""
    content = bytearray(content)
    for _ in range(chance.choice((0, 1, 1, 2, 8, 64))):
        if content:
            content[chance.randrange(len(content))] = chance.choice((0, 1, 0x7F, 0x80, 0xFF, chance.randrange(256)))
    how = chance.randrange(12)
    if how == 0:
        del content[chance.randrange(len(content) + 1) :]
    elif how == 1:
        content += chance.randbytes(chance.choice((1, 8, PAGE)))
    return bytes(content)


def place(shown):
    """Number, offset or position and, where there are any, entries read of an answer."""
    offset = int(shown.get("offset", shown.get("position", "0x0")), 16)
    return tuple([shown["number"], offset] + [shown[name] for name in ("entries",) if name in shown])


def shown_bytes(shown):
    return bytes.fromhex(shown.get("bytes", ""))


class Damage:
    """Runs one damaged case or map after the other in a directory."""

    def __init__(self, directory, seed):
        self.directory, self.chance, self.library = directory, random.Random(seed), Library()
        self.met = Counter()
        self.paths = [directory / name for name in ("sheet", "image", "pagefile")]
        self.addresses = [address for address, _, _ in make_case.ANSWERS]
        list_files, (self.list_head, *_) = list_case(directory, 5)
        self.cases = [[path.read_bytes() for path in list_files.words()]]
        self.cases.append([path.read_bytes() for path in block_case(directory)[0].words()])
        self.shipped = [(SHIPPED / name).read_bytes() for name in ("sheet", "image", "pagefile")]
        machines = make_case.MACHINES.values()
        self.cases += [[machine.sheet(), machine.image(), machine.pagefile()] for machine in machines]
        self.addresses += [address for machine in machines for address, _, _ in machine.answers]
        self.pools = pool_page(1, 2, 509) + bytes(PAGE) + pool_page(*[4] * 128)
        self.cases.append(self.shipped)

    def address(self):
        near = self.chance.choice(self.addresses) + self.chance.randrange(-9, 9)
        return self.chance.choice((near, near, self.list_head, self.chance.getrandbits(64))) % 2**64

    def run_json(self, *words):
        """The answers, or the fault of the case or map as the only one."""
        # Of 16 decimal digits the program does not say whether they are hex, so every number is.
        words = [f"{word:#x}" if isinstance(word, int) else word for word in words]
        done = run(words[0], "--json", *words[1:])
        if done.returncode not in (0, 1) or any(word in done.stderr for word in SANITIZER_WORDS):
            raise Fault(f"{words}: exit status {done.returncode}\n{done.stderr.decode(errors='replace')}")
        document = json.loads(done.stdout)
        answers = document["answers"] + [document[name] for name in ("case", "map") if name in document]
        if done.returncode != any(one["number"] in REFUSALS for one in answers):
            raise Fault(f"{words}: exit status {done.returncode} for {answers}")
        return answers

    def expect(self, words, shown, answered):
        if shown != answered:
            raise Fault(f"{words}: shown {shown}, the library answers {answered}")

    def step(self):
        """One damaged case, or one damaged map."""
        case = list(self.chance.choice(self.cases))
        for place_in_case in range(3):
            if self.chance.randrange(3) == 0:
                case[place_in_case] = damaged(case[place_in_case], self.chance)
                self.met[self.paths[place_in_case].name] += 1
        for path, content in zip(self.paths, case):
            path.write_bytes(content)
        verbs = (self.case, self.resolve, self.page, self.read, self.time, self.map, self.lookup, self.processor_block, self.list)
        verb, fault = self.chance.choice((*verbs, self.pool)), self.library.resolve(case, 0)[:2]
        if fault[0] in CASE_FAULTS and verb not in (self.lookup, self.case, self.pool):
            self.refused_case(fault)
        else:
            verb(case)

    def refused_case(self, fault):
        """Whatever is asked, and if nothing is, the case is refused once."""
        numbers = [self.address() for _ in range(self.chance.randrange(3))]
        verb = self.chance.choice(("resolve", "page", "time", ("processor-block", "list", "read")[len(numbers)]))
        self.expect((verb, numbers), [place(one) for one in self.run_json(verb, *self.paths, *numbers)], [fault])

    def case(self, case):
        shown = self.run_json("case", *self.paths)[0]
        runs = [tuple(int(run[name], 16) // PAGE for name in ("start", "last", "image_offset")) for run in shown.get("runs", [])]
        runs = [(first, last + 1 - first, page) for first, last, page in runs]
        mode = PROFILES.index(shown.get("profile", PROFILES[0]))
        answered = (shown["number"], (int(shown.get("directory_page", "0"), 16), mode, shown.get("place", 0)), runs)
        self.expect(("case",), answered, self.library.case(case))
        asked = int(shown.get("asked_length", shown.get("position", "0")), 16)
        self.expect(("case",), asked, self.library.image_length(case[0])[1])

    def resolve(self, case):
        addresses = [self.address() for _ in range(8)]
        shown = [place(one) for one in self.run_json("resolve", self.directory, *addresses)]
        self.expect(("resolve", addresses), shown, [self.library.resolve(case, address) for address in addresses])

    def page(self, case):
        address = self.address()
        shown = self.run_json("page", *self.paths, address)[0]
        number = self.library.resolve(case, address)[0]
        file, offset, length = self.library.page(case, address)
        content = case[file][offset : offset + length] if file else bytes(PAGE if number == 3 else 0)
        self.expect(("page", address), (shown["number"], shown_bytes(shown)), (number, content))

    def read(self, case):
        address, n = self.address(), self.chance.choice((0, 1, 8, 100, PAGE, 3 * PAGE))
        shown = self.run_json("read", *self.paths, address, n)[0]
        zeros = int(any(one["number"] == 3 for one in shown.get("stretches", [])))
        answered = self.library.read(case, address, n)
        self.expect(("read", address, n), (shown["number"], shown_bytes(shown), zeros), answered)
        if "refused_address" in shown:
            refused = int(shown["refused_address"], 16)
            self.expect(("read", address, n), self.library.resolve(case, refused)[0], shown["number"])
            if refused > address:
                self.expect(("read", address, n), self.library.read(case, address, refused - address)[0], 0)

    def time(self, case):
        address = self.address()
        shown = self.run_json("time", *self.paths, address)[0]
        number, seconds, ticks = self.library.read_time(case, address)
        read, content, zeros = self.library.read(case, address, 8)
        answered = (number, bool(zeros), *([seconds, ticks] if number == 0 else []))
        told = [shown[name] for name in ("seconds", "ticks", "utc") if name in shown]
        self.expect(("time", address), (shown["number"], shown["zeros"], *told[:2]), answered)
        self.expect(("time", address), len(told), 3 if number == 0 else 0)
        if number == 0:
            self.expect(("time", address), told[0] * 10_000_000 + told[1], int.from_bytes(content, "little"))
        elif number not in (60, 61):
            self.expect(("time", address), read, number)

    def map(self, case):
        start = self.address() // PAGE * PAGE
        shown = self.run_json("map", *self.paths, start, MAP_PAGES)[0]
        self.expect(("map", start), (shown["number"], shown_bytes(shown)), self.library.map(case, start, MAP_PAGES))

    def lookup(self, _case):
        start = self.address() // PAGE * PAGE
        content = damaged(self.library.map(self.shipped, start, MAP_PAGES)[1], self.chance)
        path = self.directory / "map"
        path.write_bytes(content)
        self.met["map"] += 1
        addresses = [(start + self.chance.randrange((MAP_PAGES + 2) * PAGE)) % 2**64 for _ in range(8)]
        shown = [place(one) for one in self.run_json("lookup", path, *addresses)]
        answered = [self.library.lookup(content, address) for address in addresses]
        self.expect(("lookup", addresses), shown, answered[:1] if answered[0][0] in MAP_FAULTS else answered)

    def processor_block(self, case):
        start = self.chance.choice((0, self.chance.randrange(2 * PAGE), self.chance.getrandbits(64)))
        shown = self.run_json("processor-block", *self.paths, start)[0]
        answered = self.library.processor_block(case, start)
        self.expect(("processor-block", start), place({"entries": 0, **shown}), answered)
        if "self" in shown:
            words = (int.from_bytes(case[1][at : at + 8], "little") for at in (answered[1] + 0x18, answered[1] + 0x1D0))
            self.expect(("processor-block", start), (int(shown["self"], 16), int(shown["cr3"], 16)), tuple(words))

    def list(self, case):
        head = self.chance.choice((self.list_head, self.list_head + 16, self.address()))
        shown = self.run_json("list", *self.paths, head)[0]
        nodes = [int(node, 16) for node in shown.get("nodes", [])]
        self.expect(("list", head), (shown["number"], nodes), self.library.process_list(case, head))

    def pool(self, _case):
        content = damaged(self.pools, self.chance)
        path = self.directory / "pools"
        path.write_bytes(content)
        shown = self.run_json("pool", path)[0]
        headers = [int(header, 16) for header in shown.get("headers", [])]
        self.expect(("pool",), (shown["number"], headers), self.library.pool_headers(content))
