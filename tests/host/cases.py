"""Cases for the tests: the shipped one, small ones of our own, and document 002's machine at full size."""
import struct
from importlib.machinery import SourceFileLoader
from importlib.util import module_from_spec, spec_from_loader
from pathlib import Path

PAGE = 4096
TABLE_ENTRIES = 512
VALID = 0x63

TESTS = Path(__file__).resolve().parent.parent


def load_make_case():
    loader = SourceFileLoader("make_case", str(TESTS / "common" / "make_case"))
    module = module_from_spec(spec_from_loader("make_case", loader))
    loader.exec_module(module)
    return module


make_case = load_make_case()
SHIPPED = make_case.CRATE / "data"
FOUR_LEVEL, PLAIN, PAE = range(3)


class Files:
    """Paths of a case's three files."""

    def __init__(self, directory, sheet=None, image=None, pagefile=None):
        self.sheet, self.image, self.pagefile = (Path(directory) / name for name in ("sheet", "image", "pagefile"))
        for path, content in ((self.sheet, sheet), (self.image, image), (self.pagefile, pagefile)):
            if content is not None:
                path.write_bytes(content)

    def words(self):
        return [self.sheet, self.image, self.pagefile]


def shipped_case(directory):
    """A copy of the shipped case."""
    return Files(directory, *((SHIPPED / name).read_bytes() for name in ("sheet", "image", "pagefile")))


def machine_case(name, directory):
    """A copy of the shipped case of a 32-bit machine."""
    return Files(directory, *((make_case.CASES / name / part).read_bytes() for part in ("sheet", "image", "pagefile")))


def sheet_of(directory_frame, runs, mode=0, place=0):
    fields, end = [*([2, directory_frame, mode, place] if mode else [1, directory_frame]), len(runs)], 0
    for first, pages in runs:
        fields += [first - end, pages]
        end = first + pages
    return b"".join(map(make_case.groups, fields))


class Memory:
    """An image of one run from frame 1 on, with tables that grow as pages are mapped."""

    def __init__(self, frames):
        self.bytes = bytearray(frames * PAGE)
        self.free_frame = 1
        self.directory = self.take_frame()

    def take_frame(self):
        self.free_frame += 1
        return self.free_frame - 1

    def offset(self, frame):
        return (frame - 1) * PAGE

    def word(self, offset):
        return struct.unpack_from("<Q", self.bytes, offset)[0]

    def put(self, offset, *words):
        struct.pack_into(f"<{len(words)}Q", self.bytes, offset, *words)

    def table_below(self, frame, index):
        at = self.offset(frame) + 8 * index
        if self.word(at) == 0:
            self.put(at, self.take_frame() * PAGE | VALID)
        return self.word(at) // PAGE

    def set_entry(self, address, entry):
        """The last-level entry of an address."""
        frame = self.directory
        for shift in (39, 30, 21):
            frame = self.table_below(frame, address >> shift & 0x1FF)
        self.put(self.offset(frame) + 8 * (address >> 12 & 0x1FF), entry)

    def map_page(self, address):
        """Maps a new frame and gives its image offset."""
        frame = self.take_frame()
        self.set_entry(address, frame * PAGE | VALID)
        return self.offset(frame)

    def write(self, directory, pagefile=b""):
        sheet = sheet_of(self.directory, [(1, len(self.bytes) // PAGE)])
        return Files(directory, sheet, bytes(self.bytes), pagefile)


def put_links(memory, offset_of, addresses):
    """Links nodes in a ring, each forward word at its node, the back word 8 bytes on."""
    for place, address in enumerate(addresses):
        after, before = addresses[(place + 1) % len(addresses)], addresses[place - 1]
        memory.put(offset_of(address), after, before)


LIST_START = 0xFFFFFA8000000000


def list_case(directory, nodes):
    """A head and its nodes, 16 bytes each, in pages that follow each other from LIST_START on."""
    pages = (nodes + 1) * 16 // PAGE + 1
    memory = Memory(pages + 4)
    offsets = [memory.map_page(LIST_START + k * PAGE) for k in range(pages)]
    addresses = [LIST_START + 16 * k for k in range(nodes + 1)]
    put_links(memory, lambda address: offsets[(address - LIST_START) // PAGE] + address % PAGE, addresses)
    return memory.write(directory), addresses


BLOCK_PLACES = ((0xFFFFF80002000000, 0x100), (0xFFFFF80002003000, 0xE28))


def block_case(directory):
    """Two processor blocks; gives their image offsets."""
    memory, offsets = Memory(16), []
    for page, place in BLOCK_PLACES:
        offset = memory.map_page(page) + place
        memory.put(offset + 0x18, page + place, page + place + 0x180)
        memory.put(offset + 0x1D0, memory.directory * PAGE)
        offsets.append(offset)
    return memory.write(directory), offsets


UNIT = 8
PAGE_UNITS = PAGE // UNIT


def pool_page(*sizes):
    """A page of pool blocks, sizes in units of 8 bytes; each header has type 5 and the protected tag of processes."""
    page, at, before = bytearray(PAGE), 0, 0
    for size in sizes:
        struct.pack_into("<HH4s", page, at, before, size | 5 << 9, b"Pro\xE3")
        at, before = at + UNIT * size, size
    return bytes(page)


RING_PAGES = 1 << 20


def ring_case(directory):
    """4 GiB of addresses over few frames: each page of the range leads to another image page than its neighbour."""
    memory = Memory(16)
    upper, lower, last, one, _, other = (memory.take_frame() for _ in range(6))
    memory.put(memory.offset(memory.directory), upper * PAGE | VALID)
    memory.put(memory.offset(upper), *[lower * PAGE | VALID] * 4)
    memory.put(memory.offset(lower), *[last * PAGE | VALID] * TABLE_ENTRIES)
    memory.put(memory.offset(last), *[one * PAGE | VALID, other * PAGE | VALID] * (TABLE_ENTRIES // 2))
    codes = b"".join(bytes([1, 1, memory.offset(frame) // PAGE]) for frame in (one, other))
    map_bytes = b"".join(map(make_case.groups, (1, 0, RING_PAGES))) + codes * (RING_PAGES // 2)
    return memory.write(directory), map_bytes


def large_page_case(directory, pages):
    """A sparse image that a 1 GiB page maps from address 0 on, its tables in the first two frames."""
    files = Files(directory, sheet_of(0, [(0, pages)]), None, b"")
    with open(files.image, "wb") as image:
        image.truncate(pages * PAGE)
        image.write(struct.pack("<Q", PAGE | VALID))
        image.seek(PAGE)
        image.write(struct.pack("<Q", VALID | 0x80))
    return files


# 002's machine: directory frame, runs as (first frame, pages), length of the pagefile.
MACHINE_RUNS = [(0x1, 0x9E), (0x100, 0x3FEF0)]
MACHINE_PAGEFILE = 0x42E64000
MACHINE_IMAGE = 0x3FF8E000


def machine_offset(physical):
    """Image offset of a physical address: runs lie one after the other."""
    before = 0
    for first, pages in MACHINE_RUNS:
        if first <= physical // PAGE < first + pages:
            return (before - first) * PAGE + physical
        before += pages
    raise ValueError(hex(physical))


def printed_machine(directory):
    """002's machine as sparse files: its printed entries at their physical addresses, tables of ours for prototypes."""
    files = Files(directory, sheet_of(make_case.DIRECTORY, MACHINE_RUNS))
    with open(files.image, "wb") as image:
        image.truncate(MACHINE_IMAGE)
        for physical, entry in make_case.PRINTED + make_case.PROTOTYPE_TABLES:
            image.seek(machine_offset(physical))
            image.write(struct.pack("<Q", entry))
        image.seek(machine_offset(0x2318E000))
        image.write(make_case.MZ)
    with open(files.pagefile, "wb") as pagefile:
        pagefile.truncate(MACHINE_PAGEFILE)
        pagefile.seek(0x296A2000)
        pagefile.write(struct.pack("<Q", 4) * (PAGE // 8))
    return files
