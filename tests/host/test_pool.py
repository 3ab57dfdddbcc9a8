"""The verb pool: each header with its bytes, the numbers, and images of several parts."""
import os

from cases import PAGE, PAGE_UNITS, UNIT, pool_page
from expected import WORDS, done, dump, place
from library import Library
from program import ANSWERED, FAILED, REFUSED, Conversation, HostTest

# What the program searches at a time.
PART = 256 * PAGE


def count(headers):
    return f"{len(headers)} header" + ("" if len(headers) == 1 else "s")


def shown_lines(image, headers):
    """A row of a dump for each header, and the line behind them."""
    rows = [line for offset in headers for line in dump(offset, image[offset : offset + UNIT])]
    return rows + [done(len(image), count(headers))]


def answer(image, number, **more):
    return {"image_length": f"0x{len(image):X}", "number": number, "words": WORDS[number], **more}


class Pool(HostTest):
    def finds(self, image, headers):
        """These headers and no others, in lines and in JSON."""
        path = self.write("image", image)
        self.says(["pool", path], ANSWERED, shown_lines(image, headers))
        shown = answer(image, 0, headers=[f"0x{offset:X}" for offset in headers])
        self.assertEqual(self.answers("pool", path), [shown])

    def refuses(self, image, number):
        path = self.write("image", image)
        self.says(["pool", path], REFUSED, [place(len(image), number)])
        self.assertEqual(self.answers("pool", path, status=REFUSED), [answer(image, number)])

    def test_empty_image(self):
        self.finds(b"", [])

    def test_no_header(self):
        self.finds(bytes(PAGE), [])
        self.finds(b"\xFF" * (3 * PAGE), [])

    def test_one_header(self):
        """The block before it has another tag, which does not matter to this one."""
        image = bytearray(pool_page(511, 1))
        image[4] |= 0x80
        self.finds(image, [511 * UNIT])

    def test_bytes_are_shown_as_they_are(self):
        image = pool_page(1, 511)
        self.finds(image, [0, UNIT])
        row = "0x0000000000000008  01 00 FF 0B 50 72 6F E3                           |....Pro.|"
        self.assertEqual(shown_lines(image, [UNIT])[0], row)

    def test_many_pages(self):
        """Three parts, with headers at the ends of each and none counted twice."""
        ones, two, none = pool_page(*[1] * PAGE_UNITS), pool_page(511, 1), bytes(PAGE)
        image = two + none * 254 + ones + two + none * 254 + two + ones + none * 86 + two
        ends = [start + UNIT * unit for start in (0, PART, 2 * PART - PAGE, len(image) - PAGE) for unit in (0, 511)]
        words = [start + UNIT * unit for start in (PART - PAGE, 2 * PART) for unit in range(PAGE_UNITS)]
        self.finds(image, sorted(ends + words))
        self.assertEqual(Library().pool_headers(image), (0, sorted(ends + words)))

    def test_image_of_whole_parts(self):
        page = pool_page(256, 256)
        self.finds(page * 512, [start + half for start in range(0, 2 * PART, PAGE) for half in (0, PAGE // 2)])

    def test_part_full_of_headers(self):
        """A header at each word: the room for a part is just enough."""
        image = pool_page(*[1] * PAGE_UNITS) * 257
        shown = answer(image, 0, headers=[f"0x{offset:X}" for offset in range(0, len(image), UNIT)])
        self.assertTrue(self.answers("pool", self.write("image", image)) == [shown])

    def test_not_whole_pages(self):
        """Refused before any header is shown, however many there are."""
        page = pool_page(256, 256)
        for image in (b"\0", page[:-1], page + b"\0", page + page[:UNIT], page + page[:2048], page * 300 + page[:-UNIT]):
            self.refuses(image, 70)

    def test_cut_short_between_parts(self):
        """Nothing more is shown of a file that was cut, even if only its last byte is gone."""
        image = pool_page(*[32] * 16) * 1024
        for length in (2 * PAGE, len(image) - 1):
            path = self.write("image", image)
            talk = Conversation("pool", path)
            first = talk.child.stdout.readline()
            os.truncate(path, length)
            status, out, error = talk.end()
            self.assertEqual((status, first.decode()), (FAILED, dump(0, image[:UNIT])[0] + "\n"))
            self.assertRegex(error.decode(), r"\Aglintloom: [^\n]*image: was cut short[^\n]* while it was read\n\Z")
            self.assertLess(len(out.splitlines()), 16 * 256)
