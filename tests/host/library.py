"""The shared library, called by its header's records. A case is the bytes of sheet, image and pagefile."""
import ctypes

from program import BUILT

U64, DOUBLE, SIZE = ctypes.c_uint64, ctypes.c_double, ctypes.c_size_t

# Fields of the record that each call hands back; a record within it stands by its fields.
RETURNS = {
    "glint_resolve": [U64] * 3,
    "glint_page": [U64] * 3,
    "glint_read": [U64] * 3,
    "glint_read_time": [U64, DOUBLE, DOUBLE],
    "glint_map": [U64] * 2,
    "glint_lookup": [U64] * 2,
    "glint_processor_block": [U64] * 3,
    "glint_process_list": [U64] * 2,
    "glint_case": [U64] * 5,
    "glint_image_length": [U64] * 2,
    "glint_pool_headers": [U64] * 2,
    "glint_write_sheet": [U64] * 2,
}


def record(kinds):
    return type("Record", (ctypes.Structure,), {"_fields_": [(f"field{k}", kind) for k, kind in enumerate(kinds)]})


def slices(*parts):
    """Each as pointer, then length."""
    return [argument for part in parts for argument in (part, SIZE(len(part)))]


def written(number, length, room):
    """What stands in a buffer: nothing after a refusal, whose length is 0 or a position."""
    return room[: length if number == 0 else 0]


class Library:
    def __init__(self):
        self.loaded = ctypes.CDLL(str(BUILT / "libglintloom.so"))
        for name, kinds in RETURNS.items():
            getattr(self.loaded, name).restype = record(kinds)

    def call(self, name, parts, *numbers):
        """The record's fields; what follows the slices is a number or a buffer."""
        rest = [U64(number) if isinstance(number, int) else number for number in numbers]
        answer = getattr(self.loaded, name)(*slices(*parts), *rest)
        return tuple(getattr(answer, field) for field, _ in answer._fields_)

    def resolve(self, case, address):
        return self.call("glint_resolve", case, address)

    def page(self, case, address):
        return self.call("glint_page", case, address)

    def read(self, case, address, n):
        """Number, bytes and whether one came from a page of zeros."""
        room = (ctypes.c_uint8 * n)()
        number, length, zeros = self.call("glint_read", case, address, n, room, SIZE(n))
        return number, bytes(written(number, length, room)), zeros

    def read_time(self, case, address):
        """Number, seconds and ticks."""
        return self.call("glint_read_time", case, address)

    def map(self, case, start, pages):
        """Number and bytes."""
        room = (ctypes.c_uint8 * (10 + 8 * pages))()
        number, length = self.call("glint_map", case, start, pages, room, SIZE(len(room)))
        return number, bytes(written(number, length, room))

    def lookup(self, content, address):
        return self.call("glint_lookup", [content], address)

    def processor_block(self, case, start):
        return self.call("glint_processor_block", case, start)

    def process_list(self, case, head):
        """Number and nodes."""
        room = (U64 * 4096)()
        number, length = self.call("glint_process_list", case, head, room, SIZE(len(room)))
        return number, written(number, length, room)

    def case(self, case):
        """Number, (directory page, mode, place) and runs as (first frame, pages, image page)."""
        sheet, image, pagefile = case
        room = (U64 * 3000)()
        number, *space, runs = self.call("glint_case", [sheet], len(image), len(pagefile), room, SIZE(len(room)))
        numbers = written(number, 3 * runs, room)
        return number, tuple(space), [tuple(numbers[k : k + 3]) for k in range(0, len(numbers), 3)]

    def image_length(self, sheet):
        return self.call("glint_image_length", [sheet])

    def pool_headers(self, image):
        """Number and offsets, with a place for each word."""
        room = (U64 * (len(image) // 8))()
        number, length = self.call("glint_pool_headers", [image], room, SIZE(len(room)))
        return number, written(number, length, room)

    def write_sheet(self, directory, runs, mode=0, place=0):
        """Number and bytes; the runs as (first page, pages)."""
        starts, lengths = ((U64 * len(runs))(*numbers) for numbers in (zip(*runs) if runs else ((), ())))
        room = (ctypes.c_uint8 * 12011)()
        lists = slices(starts, lengths)
        number, length = self.call("glint_write_sheet", [], directory, mode, place, *lists, room, SIZE(len(room)))
        return number, bytes(written(number, length, room))
