"""The bindings over real members and looks. DIGARUMBI_LIBRARY names another shared library than that of target/lib."""

import math
import os
import re
import struct
import subprocess
import sys
import threading
import unittest

HERE = os.path.dirname(os.path.realpath(__file__))
ROOT = os.path.join(HERE, "..", "..", "..")
sys.path.insert(0, os.path.join(HERE, ".."))

import digarumbi
from digarumbi import Refused


def file(*path):
    with open(os.path.join(ROOT, *path), "rb") as opened:
        return opened.read()


STATISTICS = file("examples", "spine_1.bin")
COEFFICIENTS = file("examples", "spine_18.bin")
LOOK = file("examples", "look_02.tlo")
OLD_LOOK = file("examples", "look_00.tlo")
FREQUENCIES = file("crates", "corpus_main", "data", "personnel_00_frequencies_2.bin")


class Rows(unittest.TestCase):
    def assertRows(self, rows):
        """A table as pandas takes it: the same keys in the same order, and plain values."""
        self.assertTrue(rows)
        for row in rows:
            self.assertEqual(list(row), list(rows[0]))
            for value in row.values():
                self.assertIsInstance(value, (int, float, str, bool, type(None)))

    def assertRefused(self, number, place, function, *arguments):
        with self.assertRaises(Refused) as raised:
            function(*arguments)
        refused = raised.exception
        self.assertEqual((refused.number, refused.place), (number, place))
        self.assertEqual(refused.text, digarumbi.REFUSALS[number])
        self.assertEqual(str(refused), f"refused {number} at {place}: {refused.text}")


class Members(Rows):
    def test_dimensions(self):
        table = digarumbi.read_member(COEFFICIENTS)
        self.assertEqual(table.version, 3)
        self.assertRows(table.dimensions())
        self.assertEqual(
            table.dimensions(),
            [
                {"dimension": 0, "name": "Statistics", "n": 5, "first_node": 0, "axis": "column", "position": 0},
                {"dimension": 1, "name": "Variables", "n": 2, "first_node": 7, "axis": "row", "position": 0},
            ],
        )

    def test_nodes(self):
        nodes = digarumbi.read_member(COEFFICIENTS).nodes()
        self.assertRows(nodes)
        self.assertEqual(len(nodes), 9)
        group, leaf = nodes[0], nodes[2]
        self.assertEqual((group["kind"], group["children"], group["leaf"], group["size"]), ("group", 2, None, 3))
        self.assertEqual((leaf["kind"], leaf["children"], leaf["leaf"], leaf["size"]), ("leaf", None, 1, 1))
        self.assertEqual((leaf["parent"], leaf["path"]), (0, "Unstandardized Coefficients > Std. Error"))

    def test_cells(self):
        cells = digarumbi.read_member(COEFFICIENTS).cells()
        self.assertRows(cells)
        self.assertEqual([cell["index"] for cell in cells], [2, 5, 9, 6, 7, 0, 8, 1, 3, 4])
        self.assertEqual(list(cells[0]), ["index", "Statistics", "Variables", "value", "kind"])
        self.assertEqual((cells[9]["Statistics"], cells[9]["value"]), ("Standardized Coefficients > Beta", 0.0))

    def test_missing_cells(self):
        cells = digarumbi.read_member(STATISTICS).cells()
        self.assertRows(cells)
        missing = [cell for cell in cells if cell["kind"] == "missing"]
        self.assertEqual(len(missing), 1)
        self.assertIsNone(missing[0]["value"])
        self.assertEqual(sum(cell["kind"] == "number" for cell in cells), 47)

    def test_coordinates(self):
        table = digarumbi.read_member(COEFFICIENTS)
        self.assertEqual(table.coordinates(9), [4, 1])
        self.assertEqual(table.coordinates(4), [2, 0])

    def test_refusals(self):
        self.assertRefused(2, 0, digarumbi.read_member, b"")
        self.assertRefused(4, 2, digarumbi.read_member, b"\1\0\2\0\0\0")
        self.assertRefused(2, 911, digarumbi.read_member, COEFFICIENTS[:1000])
        self.assertRefused(11, len(COEFFICIENTS), digarumbi.read_member, COEFFICIENTS + b"\0")
        self.assertRefused(1, 0, digarumbi.read_member, bytes(1048577))

    def test_any_bytes(self):
        table = digarumbi.read_member(bytearray(COEFFICIENTS))
        self.assertEqual(table.cells(), digarumbi.read_member(memoryview(COEFFICIENTS)).cells())

    def test_all_stored_members(self):
        folder = os.path.join(ROOT, "crates", "corpus_main", "data")
        accepted = 0
        for name in sorted(os.listdir(folder)):
            try:
                table = digarumbi.read_member(file(folder, name))
            except Refused:
                continue
            accepted += 1
            self.assertEqual(len(table.cells()), table._answer[4])
            self.assertEqual(len(table.nodes()), table._answer[3])
            self.assertEqual(len(table.totals()), sum(row["n"] for row in table.dimensions()))
        self.assertGreater(accepted, 24)

    def test_threads(self):
        expected = digarumbi.read_member(STATISTICS).cells()
        found = []
        threads = [threading.Thread(target=lambda: found.append(digarumbi.read_member(STATISTICS).cells())) for _ in range(8)]
        for thread in threads:
            thread.start()
        for thread in threads:
            thread.join()
        self.assertEqual(found, [expected] * 8)


class Lists(Rows):
    BUFFER = STATISTICS + COEFFICIENTS
    SECOND = (len(STATISTICS), len(COEFFICIENTS))

    def test_each_as_by_itself(self):
        cut = (len(STATISTICS), 1000)
        first, second, refused = digarumbi.read_members(self.BUFFER, [(0, len(STATISTICS)), self.SECOND, cut])
        self.assertEqual(first.cells(), digarumbi.read_member(STATISTICS).cells())
        self.assertEqual(second.cells(), digarumbi.read_member(COEFFICIENTS).cells())
        self.assertEqual(second.nodes(), digarumbi.read_member(COEFFICIENTS).nodes())
        self.assertEqual(second.totals(), digarumbi.read_member(COEFFICIENTS).totals())
        self.assertEqual((refused.number, refused.place), (2, 911))

    def test_members_that_are_not_inside(self):
        length = len(self.BUFFER)
        outside = [(1, length), (length + 1, 0), (-1, 5), (0, -1), (2**32, 0), (0, 2**32)]
        read = digarumbi.read_members(self.BUFFER, outside + [self.SECOND])
        self.assertEqual([(refused.number, refused.place) for refused in read[:-1]], [(2, 0)] * len(outside))
        self.assertEqual(len(read[-1].cells()), 10)

    def test_lists(self):
        self.assertEqual(digarumbi.read_members(b"", []), [])
        self.assertEqual(len(digarumbi.read_members(self.BUFFER, [self.SECOND] * 64)), 64)
        self.assertRefused(26, 0, digarumbi.read_members, self.BUFFER, [self.SECOND] * 65)
        self.assertRefused(24, 0, digarumbi.read_members, self.BUFFER, [], 1253)


class Positions(Rows):
    def test_positions(self):
        table = digarumbi.read_member(COEFFICIENTS)
        self.assertRows(table.positions())
        self.assertEqual(table.positions()[1], {"index": 5, "layer": 0, "row": 1, "column": 2})
        for row in table.positions():
            self.assertEqual([row["column"], row["row"]], table.coordinates(row["index"]))
            self.assertEqual(table.index(row["layer"], row["row"], row["column"]), row["index"])

    def test_outside(self):
        table = digarumbi.read_member(COEFFICIENTS)
        for index in (10, -1, 2**32):
            self.assertRefused(10, 0, table.position, index)
        for position in [(1, 0, 0), (0, 2, 0), (0, 0, 5), (0, -1, 0), (2**32, 0, 0)]:
            self.assertRefused(10, 0, table.index, *position)

    def test_turned(self):
        table = digarumbi.read_member(COEFFICIENTS)
        turned = table.turned([], [0, 1], [])
        self.assertEqual(turned.position(5), (0, 7, 0))
        self.assertEqual(turned.cells(), table.cells())
        self.assertEqual(turned.totals(), table.totals())
        self.assertEqual([(row["axis"], row["position"]) for row in turned.dimensions()], [("row", 0), ("row", 1)])
        back = turned.turned([], [1], [0])
        self.assertEqual((back.positions(), back.dimensions()), (table.positions(), table.dimensions()))
        for axes in [([], [0], []), ([0], [0], [1]), ([2], [0], []), ([-1], [0], []), ([2**32], [1], [])]:
            self.assertRefused(9, 0, table.turned, *axes)


class Totals(Rows):
    def test_one_leaf(self):
        table = digarumbi.read_member(STATISTICS)
        mode = {"total": 3, "numbers": 2, "texts": 0, "missing": 1, "smallest": 1.0, "largest": 2.0}
        self.assertEqual(table.total(1, 5), mode)
        self.assertRefused(20, 2690, table.total, 1, 2)

    def test_all_leaves(self):
        table = digarumbi.read_member(STATISTICS)
        rows = table.totals(1)
        self.assertRows(rows)
        self.assertEqual(len(rows), 16)
        self.assertEqual((rows[15]["path"], rows[15]["total"], rows[15]["refusal"]), ("Sum", 67, None))
        self.assertEqual((rows[2]["path"], rows[2]["total"], rows[2]["refusal"], rows[2]["place"]), ("Mean", None, 20, 2690))
        self.assertEqual([row["dimension"] for row in table.totals()], [0] * 3 + [1] * 16)

    def test_the_sum_of_the_cells(self):
        table = digarumbi.read_member(FREQUENCIES)
        rows = [row for row in table.totals(0) if row["leaf"] == 0]
        cells = [cell["value"] for cell in table.cells() if table.coordinates(cell["index"])[0] == 0]
        self.assertEqual(rows[0]["total"], sum(cells))

    def test_numbers_out_of_range(self):
        table = digarumbi.read_member(STATISTICS)
        for dimension, leaf in [(2, 0), (1, 16), (-1, 0), (1, -1), (2**32, 0), (1, 2**32)]:
            self.assertRefused(19, 0, table.total, dimension, leaf)
        for dimension in (2, -1, 2**32):
            self.assertRefused(19, 0, table.totals, dimension)


class Looks(Rows):
    def test_fields(self):
        look = digarumbi.read_look(LOOK)
        self.assertEqual((look.version, look.flags, look.nested_row_labels), (2, 0x01FE, True))
        self.assertEqual((look.min_col_width, look.max_col_width, look.max_row_height), (36, 72, 120))
        self.assertEqual((look.file_version, look.continuation, look.default_continuation), (2, "", False))

    def test_a_file_of_version_00(self):
        look, new = digarumbi.read_look(OLD_LOOK), digarumbi.read_look(LOOK)
        self.assertEqual((look.version, look.file_version), (2, 0))
        self.assertEqual((look.continuation, look.default_continuation), ("(Cont.)", True))
        widths, heights = (look.min_col_width, look.max_col_width), (look.min_row_height, look.max_row_height)
        self.assertEqual((widths, heights), ((36, 72), (36, 120)))
        self.assertRows(look.separators())
        drawn = [row for row in look.separators() if row["drawn"]]
        self.assertEqual([row["separator"] for row in drawn], [f"inner frame {side}" for side in "left right top bottom".split()])
        self.assertEqual({(row["color"], row["style"], row["width"]) for row in drawn}, {(0, 0, 1)})
        self.assertEqual((look.flags, look.areas()), (new.flags, new.areas()))

    def test_areas(self):
        areas = digarumbi.read_look(LOOK).areas()
        self.assertRows(areas)
        areas = {row["area"]: row for row in areas}
        self.assertEqual(len(areas), 8)
        self.assertEqual((areas["title"]["color10"], areas["title"]["color0"]), (0x00010203, 0x00FFEEDD))
        self.assertEqual((areas["caption"]["valign"], areas["caption"]["bottom_margin"]), (1, 7))
        self.assertEqual((areas["footer"]["font_size"], areas["footer"]["weight"]), (-12, 700))

    def test_separators(self):
        separators = digarumbi.read_look(LOOK).separators()
        self.assertRows(separators)
        self.assertEqual(len(separators), 8 + 11)
        by_name = {row["separator"]: row for row in separators}
        self.assertEqual(len(by_name), len(separators))
        self.assertFalse(by_name["columns vertical category"]["drawn"])

    def test_rewriting(self):
        self.assertEqual(digarumbi.rewrite_look(LOOK), LOOK)
        self.assertRefused(2, 709, digarumbi.rewrite_look, LOOK[:712])
        self.assertRefused(2, 3, digarumbi.read_look, LOOK[:3])

    def test_rewriting_a_file_of_version_00(self):
        new = digarumbi.rewrite_look(OLD_LOOK)
        self.assertEqual(len(new), len(OLD_LOOK) + 78)
        self.assertEqual((OLD_LOOK[17], new[17]), (0, 2))
        self.assertEqual((new[:17], new[18 : len(OLD_LOOK)]), (OLD_LOOK[:17], OLD_LOOK[18:]))
        old_look, new_look = digarumbi.read_look(OLD_LOOK), digarumbi.read_look(new)
        self.assertEqual((new_look.continuation, new_look.default_continuation), (old_look.continuation, False))
        self.assertEqual(new_look.separators(), old_look.separators())
        self.assertEqual(digarumbi.rewrite_look(new), new)
        self.assertRefused(11, 674, digarumbi.rewrite_look, OLD_LOOK + b"\0")

    def test_sections(self):
        sections = digarumbi.look_sections(LOOK)
        self.assertEqual(len(sections), 804)
        # a font with no name, 12 pixels high, bold and italic, not underlined, centered, at the bottom
        area = b"1" + bytes(4) + b"\0\0\x40\x41" + b"\3\0\0\0" + b"\0" + bytes(4) + b"\3\0\0\0"
        # colors of text and background, no alternate rows, no margins
        area += b"\7\0\0\0#332211" + b"\7\0\0\0#030201" + bytes(9) + bytes(16)
        self.assertEqual(sections[:560], b"".join(bytes([index]) + area for index in range(1, 9)))
        self.assertEqual(self.borders(sections), [(number, 0, 0xFF000000) for number in range(19)])

    def borders(self, sections):
        """Number, stroke and color of each border."""
        self.assertEqual(sections[560:572], b"\xf0\0\0\0" + b"\0\0\0\1" + b"\0\0\0\x13")
        self.assertEqual(sections[800:], bytes(4))
        return list(struct.iter_unpack(">III", sections[572:800]))

    def test_sections_of_a_file_of_version_00(self):
        sections = digarumbi.look_sections(OLD_LOOK)
        self.assertEqual(sections[:560], digarumbi.look_sections(LOOK)[:560])
        drawn = [number for number, stroke, color in self.borders(sections) if (stroke, color) == (1, 0xFF000000)]
        self.assertEqual(drawn, [5, 6, 7, 8])

    def test_sections_in_a_member(self):
        # its own stand from 271 to 1155
        member = COEFFICIENTS[:271] + digarumbi.look_sections(LOOK) + COEFFICIENTS[1155:]
        self.assertEqual(digarumbi.read_member(member).cells(), digarumbi.read_member(COEFFICIENTS).cells())

    def test_refused_sections(self):
        self.assertRefused(2, 709, digarumbi.look_sections, LOOK[:712])
        # the first alignment stands at 124, the first font size at 142
        self.assertRefused(29, 124, digarumbi.look_sections, LOOK[:124] + b"\3" + LOOK[125:])
        self.assertRefused(7, 142, digarumbi.look_sections, LOOK[:142] + bytes(4) + LOOK[146:])


class Texts(Rows):
    def test_both_ways(self):
        self.assertEqual(digarumbi.decode(1250, b"\xa3\xf3d\x9f"), "Łódź")
        self.assertEqual(digarumbi.encode(1250, "Łódź"), b"\xa3\xf3d\x9f")
        self.assertEqual(digarumbi.decode(1251, b""), "")
        self.assertEqual(digarumbi.encode(1251, ""), b"")

    def test_refusals(self):
        self.assertRefused(25, 1, digarumbi.decode, 1252, b"A\x81")
        self.assertRefused(25, 2, digarumbi.encode, 1251, "Жł")
        self.assertRefused(25, 1, digarumbi.encode, 1251, "A\ud800")
        for page in (1253, -1, 2**32 + 1250):
            self.assertRefused(24, 0, digarumbi.decode, page, b"A")

    def test_names_in_a_page(self):
        member = COEFFICIENTS.replace(b"Variables", b"Varia\xb3les")
        escaped, polish = digarumbi.read_member(member), digarumbi.read_member(member, page=1250)
        self.assertEqual(escaped.dimensions()[1]["name"], "Varia\\xb3les")
        self.assertEqual(polish.dimensions()[1]["name"], "Varia\u0142les")
        self.assertIn("Varia\u0142les", polish.cells()[0])
        none = digarumbi.read_member(COEFFICIENTS.replace(b"Variables", b"Varia\x81les"), page=1250)
        self.assertEqual(none.dimensions()[1]["name"], "Varia\\x81les")
        self.assertRefused(24, 0, digarumbi.read_member, member, 1253)
        self.assertRefused(24, 0, digarumbi.read_look, LOOK, 1253)


class Cases(Rows):
    KINDS = ["numeric", "string"]
    STREAM = bytes([101, 254, 255, 100, 253, 253, 252, 0]) + b"\0\0\0\0\0\0\4\x40" + b"Lumbar 1"
    CASES = [{"n": 1.0, "s": b"        "}, {"n": None, "s": bytes(8)}, {"n": 2.5, "s": b"Lumbar 1"}]

    def test_cases(self):
        self.assertEqual(list(digarumbi.read_cases(self.STREAM, self.KINDS, 100, ["n", "s"])), self.CASES)
        self.assertEqual(next(digarumbi.read_cases(self.STREAM, self.KINDS)), {0: 1.0, 1: b"        "})

    def test_cuts_make_no_difference(self):
        for length in range(1, len(self.STREAM)):
            cut = digarumbi.read_cases(Cut(self.STREAM, length), self.KINDS, names=["n", "s"])
            self.assertEqual(list(cut), self.CASES)

    def test_more_elements_than_are_decoded_at_once(self):
        cases = list(digarumbi.read_cases(bytes([101] * 40000), ["numeric"]))
        self.assertEqual((len(cases), cases[39999]), (40000, {0: 1.0}))

    def test_refusals(self):
        self.assertRefused(21, 0, digarumbi.read_cases, b"", [])
        self.assertRefused(21, 0, digarumbi.read_cases, b"", ["numeric"], 256)
        self.assertRefused(21, 0, digarumbi.read_cases, b"", ["numeric"], -1)
        self.assertRefused(22, 1, list, digarumbi.read_cases(bytes([101, 254, 0, 0, 0, 0, 0, 0]), ["numeric"]))
        self.assertRefused(23, 8, list, digarumbi.read_cases(bytes([101, 0, 0, 0, 0, 0, 0, 0]), self.KINDS))
        with self.assertRaises(ValueError):
            digarumbi.read_cases(b"", ["numeric"], names=[])

    def test_cases_before_a_refusal(self):
        cases = digarumbi.read_cases(bytes([101, 102, 254, 0, 0, 0, 0, 0]), ["numeric"])
        self.assertEqual([next(cases), next(cases)], [{0: 1.0}, {0: 2.0}])
        self.assertRefused(22, 2, next, cases)


class Cut:
    """A file that gives at most `length` bytes at once."""

    def __init__(self, data, length):
        self.data, self.length = data, length

    def read(self, _):
        given, self.data = self.data[: self.length], self.data[self.length :]
        return given


class Units(Rows):
    def test_conversions(self):
        self.assertEqual([digarumbi.pt_to_px(points) for points in (0, 1, 3, 72)], [0, 2, 4, 96])
        self.assertEqual([digarumbi.px_to_pt(pixels) for pixels in (2, 96)], [1, 72])
        self.assertEqual([digarumbi.font_height(size) for size in (-12, -(2**31))], [12, 2**31])

    def test_refusals(self):
        for points in (1000001, -1, 2**32):
            self.assertRefused(7, 0, digarumbi.pt_to_px, points)
        for size in (0, 12, 2**31, -(2**31) - 1):
            self.assertRefused(7, 0, digarumbi.font_height, size)


class Numbers(unittest.TestCase):
    def value(self, bits):
        return digarumbi._Value(3, b"\1\x58" + bytes(4) + bits.to_bytes(8, "little"), None)

    def test_doubles(self):
        self.assertEqual(self.value(0x4004000000000000).value(), 2.5)
        self.assertEqual(self.value(0x7FF0000000000000).value(), math.inf)
        self.assertTrue(math.isnan(self.value(0x7FF8000000000000).value()))
        self.assertEqual((self.value(0xFFEFFFFFFFFFFFFF).kind(), self.value(0xFFEFFFFFFFFFFFFF).value()), ("missing", None))

    def test_texts_of_doubles(self):
        finite = [(0x4004000000000000, "2.5"), (0x401C000000000000, "7"), (1 << 63, "-0")]
        others = [(0x7FF0000000000000, "inf"), (0x7FF8000000000000, "nan"), (0xFFEFFFFFFFFFFFFF, ".")]
        for bits, text in finite + others:
            self.assertEqual(self.value(bits).text(), text)


class Library(unittest.TestCase):
    def test_the_refusals_of_the_header(self):
        header = file("include", "digarumbi.h").decode()
        numbers = dict(re.findall(r"(DIGARUMBI_REFUSED_\w+) = (\d+)", header))
        texts = dict(re.findall(r'case (DIGARUMBI_REFUSED_\w+):\n\s*return "(.*)";', header))
        self.assertEqual({int(numbers[name]): text for name, text in texts.items()}, digarumbi.REFUSALS)
        self.assertEqual(len(numbers), len(texts))
        for number in (0, 16, 17, 27, 28):
            self.assertIn(f'return "{digarumbi.refusal_text(number)}";', header)

    def test_the_sizes_of_the_header(self):
        header = file("include", "digarumbi.h").decode()
        answers = "MEMBERS MEMBER_ANSWER VALUE_WORDS TOTAL_ANSWER TOTALS_ANSWER POSITION_WORDS INDEX_WORDS LOOK_ANSWER REWRITE_ANSWER"
        answers += " SECTIONS_ANSWER TEXT_ANSWER CASES_ANSWER CASES_FEED_ANSWER"
        records = "DIMENSION_RECORD NODE_RECORD CELL_RECORD TOTAL_RECORD"
        for name in f"{answers} {records}".split():
            self.assertRegex(header, rf"\bDIGARUMBI_{name} = {getattr(digarumbi, name)}\b")
        for name in "NODE_AREA CELL_AREA LONGEST_LOOK LONGEST_SECTIONS LOOK_VERSION_PLACE CASES_STATE".split():
            self.assertIn(f"#define DIGARUMBI_{name} {getattr(digarumbi, name)}\n", header)
        for name in "ABI LOOK_DEFAULT_CONTINUATION".split():
            self.assertIn(f"#define DIGARUMBI_{name} UINT32_C({getattr(digarumbi, name)})\n", header)
        letters = digarumbi.LOOK_DEFAULT_CONTINUATION_LETTERS.decode()
        self.assertIn(f'#define DIGARUMBI_LOOK_DEFAULT_CONTINUATION_LETTERS "{letters}"\n', header)

    def test_a_library_that_is_not_there(self):
        environment = {**os.environ, "DIGARUMBI_LIBRARY": "/nowhere/libdigarumbi.so", "PYTHONPATH": os.path.join(HERE, "..")}
        run = subprocess.run([sys.executable, "-c", "import digarumbi"], env=environment, capture_output=True, text=True)
        self.assertNotEqual(run.returncode, 0)
        self.assertIn("/nowhere/libdigarumbi.so", run.stderr)


if __name__ == "__main__":
    unittest.main()
