"""Reads light detail members, version 1 and 3, and binary table looks (.tlo), totals the counts of members, and converts text in old
code pages, and decodes compressed case data, over a library in which every function is proved to meet its contract.

    import digarumbi
    table = digarumbi.read_member(open("examples/spine_1.bin", "rb").read())
    pandas.DataFrame(table.cells())
    pandas.DataFrame(table.totals())

Lists are lists of dicts with the same keys and plain values, as pandas takes them. What is refused raises `Refused`, with document 01's
number, place and words. No dependencies. The shared library is the one that DIGARUMBI_LIBRARY names, or target/lib/libdigarumbi.so of this
repository, or else the one that the system finds.

What the words of answers and records mean stands in include/digarumbi.h. Nothing checks these declarations against the library; the tests
compare what comes back.
"""

import ctypes
import ctypes.util
import io
import os
import struct
from ctypes import POINTER, byref, c_char_p, c_double, c_int32, c_size_t, c_uint32

__all__ = [
    "Refused",
    "Table",
    "Look",
    "read_member",
    "read_members",
    "read_look",
    "rewrite_look",
    "look_sections",
    "decode",
    "encode",
    "read_cases",
    "pt_to_px",
    "px_to_pt",
    "font_height",
    "refusal_text",
    "REFUSALS",
]

ABI = 3

MEMBER_ANSWER = 88
VALUE_WORDS = 22
TOTAL_ANSWER = 13
TOTALS_ANSWER = 5
POSITION_WORDS = 5
INDEX_WORDS = 3
LOOK_ANSWER = 264
REWRITE_ANSWER = 3
SECTIONS_ANSWER = 3
TEXT_ANSWER = 3
CASES_ANSWER = 2
CASES_FEED_ANSWER = 4
CASES_STATE = 268

DIMENSION_RECORD = 4
NODE_RECORD = 7
CELL_RECORD = 3
TOTAL_RECORD = 11
NODE_AREA = 28672
CELL_AREA = 12288
LONGEST_LOOK = 3160
LONGEST_SECTIONS = 2844
LOOK_VERSION_PLACE = 17
LOOK_DEFAULT_CONTINUATION = 0xFFFFFFFF
LOOK_DEFAULT_CONTINUATION_LETTERS = b"(Cont.)"
MEMBERS = 2

NO_PARENT = 0xFFFFFFFF
LAST_WORD = 0xFFFFFFFF
CELL_INDEX = 10
NO_SUCH_LEAF = 19

# The refusal numbers, with document 01's words. 16, 17, 27 and 28 are not given.
REFUSALS = {
    1: "member too long",
    2: "a field doesn't fit in the input or its region",
    3: "a fixed byte, fixed number, mark or area index differs",
    4: "a version that isn't read, or in version 1 a value's modifier that begins 31",
    5: "a bool neither 0 nor 1",
    6: "a region's content ends early",
    7: "a limit passed",
    8: "leaf index not below n, or seen before in this dimension",
    9: "axis counts don't add up, or an entry is no dimension or is repeated",
    10: "cell index not below the product, or seen before",
    11: "bytes left at the end",
    12: "node area shorter than 7 words a node",
    13: "cell area shorter than 3 words a cell",
    14: "a color's high byte not 0",
    15: "output too short",
    18: "a zero byte inside a string",
    19: "a dimension or leaf that isn't there",
    20: "a number under the leaf that is no count",
    21: "a bad kind list or bias, or words that are no state",
    22: "a code that its element can't have",
    23: "the end too soon",
    24: "an unknown page",
    25: "a byte without an entry in the page, or a character that has none or isn't UTF-8 in its shortest form",
    26: "a list of more than 64 members, or of an odd number of words",
    29: "a drawn separator whose style and width have no meaning, or an alignment that has none",
}


def refusal_text(number):
    """What a refusal number says, in one line; also of 0 and of one that is no refusal's."""
    return "no refusal" if number == 0 else REFUSALS.get(number, "no such refusal number")


class Refused(ValueError):
    """Why an input is refused: a number of document 01, and the place in the input."""

    def __init__(self, number, place):
        super().__init__(f"refused {number} at {place}: {refusal_text(number)}")
        self.number = number
        self.place = place
        self.text = refusal_text(number)


# ---- The library ----

WORDS = POINTER(c_uint32)
AREA = [WORDS, c_size_t]
BYTES = [c_char_p, c_size_t]

FUNCTIONS = {
    "digarumbi_abi": ([], c_uint32),
    "digarumbi_read_member": (BYTES + AREA + AREA + AREA, c_size_t),
    "digarumbi_read_members": (BYTES + AREA + AREA + AREA + AREA, c_size_t),
    "digarumbi_position": (AREA + [c_uint32] * 3 + AREA + [c_uint32] + AREA, c_size_t),
    "digarumbi_index": (AREA + [c_uint32] * 3 + AREA + [c_uint32] * 3 + AREA, c_size_t),
    "digarumbi_value": ([c_uint32] + BYTES + AREA, c_size_t),
    "digarumbi_number": ([c_uint32, c_uint32, POINTER(c_double)], c_uint32),
    "digarumbi_total": (BYTES + [c_uint32, c_uint32] + AREA + AREA + AREA, c_size_t),
    "digarumbi_totals": (BYTES + [c_uint32] + AREA + AREA + AREA + AREA, c_size_t),
    "digarumbi_read_look": (BYTES + AREA, c_size_t),
    "digarumbi_rewrite_look": (BYTES + BYTES + AREA, c_size_t),
    "digarumbi_look_sections": (BYTES + BYTES + AREA, c_size_t),
    "digarumbi_to_utf8": ([c_uint32] + BYTES + BYTES + AREA, c_size_t),
    "digarumbi_from_utf8": ([c_uint32] + BYTES + BYTES + AREA, c_size_t),
    "digarumbi_cases_start": (BYTES + [c_uint32] + AREA + AREA, c_size_t),
    "digarumbi_cases_feed": (AREA + BYTES + BYTES + AREA, c_size_t),
    "digarumbi_cases_end": (AREA + AREA, c_size_t),
    "digarumbi_pt_to_px": ([c_uint32, WORDS], c_uint32),
    "digarumbi_px_to_pt": ([c_uint32, WORDS], c_uint32),
    "digarumbi_font_height": ([c_int32, WORDS], c_uint32),
}


def _library_path():
    named = os.environ.get("DIGARUMBI_LIBRARY")
    if named:
        return named
    here = os.path.dirname(os.path.realpath(__file__))
    built = os.path.join(here, "..", "..", "target", "lib", "libdigarumbi.so")
    if os.path.exists(built):
        return built
    found = ctypes.util.find_library("digarumbi")
    if found:
        return found
    raise ImportError("libdigarumbi.so is not there: run ./build at the root of the repository, or set DIGARUMBI_LIBRARY to its path")


def _load():
    path = _library_path()
    library = ctypes.CDLL(path)
    for name, (arguments, result) in FUNCTIONS.items():
        function = getattr(library, name)
        function.argtypes, function.restype = arguments, result
    abi = library.digarumbi_abi()
    if abi != ABI:
        raise ImportError(f"{path} has version {abi} of the interface, and this module is for version {ABI}")
    return library


_library = _load()


def _area(words):
    """An area of words, as a pair that a function takes as two arguments."""
    return (c_uint32 * words)(), words


def _words(numbers):
    """Numbers as an area, likewise. One that is no word is as the largest."""
    words = [number if _is_word(number) else LAST_WORD for number in numbers]
    return (c_uint32 * len(words))(*words), len(words)


def _is_word(number):
    return 0 <= number <= LAST_WORD


def _input(data):
    """The bytes of an input, likewise."""
    data = bytes(data)
    return data, len(data)


def _test(answer):
    """Raises what an answer refuses."""
    number, place = answer[0][:2]
    if number != 0:
        raise Refused(number, place)


def _records(area, width, count):
    words = area[: width * count]
    return [words[at : at + width] for at in range(0, len(words), width)]


# ---- Values ----

NUMBER, LABELLED_NUMBER, TEXT, STRING, VARIABLE, FIXED_TEXT, TEMPLATE = range(1, 8)
# Words of a Value's answer.
FORM, BITS_LOW, BITS_HIGH, SHOW, LOCAL, NAME, LABEL = 4, 6, 7, 8, 10, 12, 14
MISSING_BITS = (0xFFFFFFFF, 0xFFEFFFFF)


class _Value:
    """What the Value of a record says. Nothing is refused of the bytes that a record of an accepted member points to."""

    def __init__(self, version, data, page):
        self.data, self.page = data, page
        answer = _area(VALUE_WORDS)
        _library.digarumbi_value(version, *_input(data), *answer)
        self.words = answer[0]
        self.form = self.words[FORM]

    def kind(self):
        if self.form not in (NUMBER, LABELLED_NUMBER):
            return "text"
        return "missing" if (self.words[BITS_LOW], self.words[BITS_HIGH]) == MISSING_BITS else "number"

    def number(self):
        """The double; a NaN for every NaN's bits."""
        number = c_double()
        given = _library.digarumbi_number(self.words[BITS_LOW], self.words[BITS_HIGH], byref(number))
        return number.value if given else float("nan")

    def value(self):
        """A float, None if it is missing, or a text."""
        kind = self.kind()
        if kind == "text":
            return self.text()
        return None if kind == "missing" else self.number()

    def text(self):
        """As a reader of the table sees it: a number, a string or a variable by its label where there is one, unless `show` asks for the
        value or name alone (1) or for both (3)."""
        if self.form in (NUMBER, LABELLED_NUMBER):
            own = "." if self.kind() == "missing" else _number_text(self.number())
        elif self.form == VARIABLE:
            own = self._string(NAME)
        else:
            own = self._string(LOCAL)
        label = self._string(LABEL)
        show = self.words[SHOW]
        if self.form not in (LABELLED_NUMBER, STRING, VARIABLE) or show == 1 or not label:
            return own
        return f"{own} {label}" if show == 3 else label

    def _string(self, word):
        place, length = self.words[word], self.words[word + 1]
        return _text(self.data[place : place + length], self.page)


def _number_text(number):
    """A whole number without a full stop."""
    whole = number.is_integer() and abs(number) < 1e15
    return f"{number:.0f}" if whole else repr(number)


def _text(data, page):
    """Bytes of a string as text: by a code page, or as UTF-8. What is neither is escaped."""
    if page is None:
        return data.decode("utf-8", "backslashreplace")
    try:
        return decode(page, data)
    except Refused:
        return data.decode("ascii", "backslashreplace")


def _test_page(page):
    """Refused with 24 if there is no such page."""
    if page is not None:
        decode(page, b"")


# ---- Members ----


def read_member(data, page=None):
    """Reads a member: a `Table`, or `Refused`. Names and texts are taken as UTF-8, or by the code page 1250, 1251 or 1252 if `page` says
    so; what is no such text is escaped, as \\xb3."""
    _test_page(page)
    data = bytes(data)
    answer, nodes, cells = _area(MEMBER_ANSWER), _area(NODE_AREA), _area(CELL_AREA)
    _library.digarumbi_read_member(*_input(data), *answer, *nodes, *cells)
    return _table(data, page, answer[0][:], nodes[0], cells[0])


def read_members(buffer, members, page=None):
    """Reads up to 64 members of one buffer, each given by its start and its length: a list with a `Table` or a `Refused` for each. One
    that isn't inside the buffer is refused with 2 at 0; a list of more than 64 raises 26."""
    _test_page(page)
    buffer, members = bytes(buffer), [_member_words(*member) for member in members]
    count = len(members)
    answers = _area(MEMBERS + count * MEMBER_ANSWER)
    nodes, cells = _area(count * NODE_AREA), _area(count * CELL_AREA)
    _library.digarumbi_read_members(*_input(buffer), *_words(sum(members, [])), *answers, *nodes, *cells)
    _test(answers)
    read = []
    for i, (start, length) in enumerate(members):
        answer = answers[0][MEMBERS + i * MEMBER_ANSWER :][:MEMBER_ANSWER]
        areas = nodes[0][i * NODE_AREA : (i + 1) * NODE_AREA], cells[0][i * CELL_AREA : (i + 1) * CELL_AREA]
        try:
            read.append(_table(buffer[start : start + length], page, answer, *areas))
        except Refused as refused:
            read.append(refused)
    return read


def _member_words(start, length):
    """A start and a length; a length that no member has if one of them is no word."""
    return [start, length] if _is_word(start) and _is_word(length) else [LAST_WORD, LAST_WORD]


def _table(data, page, answer, nodes, cells):
    """The table of a member by its answer and its areas."""
    if answer[0] != 0:
        raise Refused(*answer[:2])
    node_count, cell_count = answer[3:5]
    return Table(data, page, answer, _records(nodes, NODE_RECORD, node_count), _records(cells, CELL_RECORD, cell_count))


class Table:
    """What an accepted member holds: lists of dicts."""

    def __init__(self, data, page, answer, node_records, cell_records):
        self.data, self.page = data, page
        self.version = int.from_bytes(data[2:6], "little")
        self._answer, self._nodes, self._cells = answer, node_records, cell_records
        self._names = [self._text(record[3], record[4]) for record in node_records]
        self._paths = [self._path(i) for i in range(len(node_records))]

    def _value(self, place, length):
        return _Value(self.version, self.data[place : place + length], self.page)

    def _text(self, place, length):
        return self._value(place, length).text()

    def _path(self, i):
        """The names of a node and of the groups that it stands in, outermost first."""
        names = []
        while i != NO_PARENT:
            names.append(self._names[i])
            i = self._nodes[i][2]
        return " > ".join(reversed(names))

    def _dimension_records(self):
        words = self._answer[8:72]
        return [words[DIMENSION_RECORD * i :][:DIMENSION_RECORD] for i in range(self._answer[2])]

    def _axes(self):
        """The axis of each dimension, and its position there, inner ones first."""
        order = iter(self._answer[72:])
        axes = {}
        for axis, count in zip(("layer", "row", "column"), self._answer[5:8]):
            for position in range(count):
                axes[next(order)] = (axis, position)
        return axes

    def dimensions(self):
        """dimension (its number), name, n (leaves at any depth), first_node, axis (layer, row or column), position (on the axis, inner
        ones first)."""
        axes = self._axes()
        rows = []
        for i, (place, length, n, first) in enumerate(self._dimension_records()):
            axis, position = axes[i]
            name = self._text(place, length)
            rows.append({"dimension": i, "name": name, "n": n, "first_node": first, "axis": axis, "position": position})
        return rows

    def nodes(self):
        """node (its number), dimension, kind (leaf or group), name, path (the names of its groups and its own), parent (a node, or None),
        leaf (a leaf's index, or None), children (of a group, or None), size (nodes that it contains, itself included)."""
        rows = []
        for i, (kind, dimension, parent, _, _, index, size) in enumerate(self._nodes):
            rows.append(
                {
                    "node": i,
                    "dimension": dimension,
                    "kind": "group" if kind else "leaf",
                    "name": self._names[i],
                    "path": self._paths[i],
                    "parent": None if parent == NO_PARENT else parent,
                    "leaf": None if kind else index,
                    "children": index if kind else None,
                    "size": size,
                }
            )
        return rows

    def _leaf_paths(self):
        """For each dimension the path of each leaf, by its index."""
        paths = [[None] * record[2] for record in self._dimension_records()]
        for record, path in zip(self._nodes, self._paths):
            if record[0] == 0:
                paths[record[1]][record[5]] = path
        return paths

    def _dimension_keys(self):
        """A key for each dimension: its name, with its number where that is taken."""
        keys = []
        for i, (place, length, _, _) in enumerate(self._dimension_records()):
            name = self._text(place, length)
            keys.append(f"{name} ({i})" if name in keys or name in ("index", "value", "kind") else name)
        return keys

    def coordinates(self, index):
        """The leaf index of a cell's category in each dimension (003, Cells)."""
        coordinates = []
        for _, _, n, _ in reversed(self._dimension_records()):
            coordinates.append(index % n)
            index //= n
        return coordinates[::-1]

    def cells(self):
        """index, for each dimension under its name the path of the cell's category, value (a float, a text, or None if it is missing), kind
        (number, text or missing)."""
        keys, paths = self._dimension_keys(), self._leaf_paths()
        rows = []
        for index, place, length in self._cells:
            value = self._value(place, length)
            row = {"index": index}
            for key, names, leaf in zip(keys, paths, self.coordinates(index)):
                row[key] = names[leaf]
            row["value"], row["kind"] = value.value(), value.kind()
            rows.append(row)
        return rows

    def _axis_words(self):
        """What a position is asked with: the n, the numbers of dimensions on the axes, and the axis order."""
        dimensions = self._answer[2]
        ns = [record[2] for record in self._dimension_records()]
        return (*_words(ns), *self._answer[5:8], *_words(self._answer[72 : 72 + dimensions]))

    def position(self, index):
        """The layer, row and column position of the cell with that index. Refused with 10 if the index is outside."""
        if not _is_word(index):
            raise Refused(CELL_INDEX, 0)
        answer = _area(POSITION_WORDS)
        _library.digarumbi_position(*self._axis_words(), index, *answer)
        _test(answer)
        return tuple(answer[0][2:])

    def index(self, layer, row, column):
        """The index of the cell at that position, whether the table has that cell or not. Refused with 10 if the position is outside."""
        if not all(map(_is_word, (layer, row, column))):
            raise Refused(CELL_INDEX, 0)
        answer = _area(INDEX_WORDS)
        _library.digarumbi_index(*self._axis_words(), layer, row, column, *answer)
        _test(answer)
        return answer[0][2]

    def positions(self):
        """One row a cell, in the order of `cells`: index, layer, row, column."""
        rows = []
        for index, _, _ in self._cells:
            layer, row, column = self.position(index)
            rows.append({"index": index, "layer": layer, "row": row, "column": column})
        return rows

    def turned(self, layers, rows, columns):
        """The same table on other axes, which are lists of dimensions, inner ones first. Refused with 9 unless they have each dimension
        once."""
        order = [*layers, *rows, *columns]
        counts, answer = [len(axis) for axis in (layers, rows, columns)], _area(POSITION_WORDS)
        ns = [record[2] for record in self._dimension_records()]
        _library.digarumbi_position(*_words(ns), *counts, *_words(order), 0, *answer)
        # An index outside is asked after the axes, so they are as they must be.
        if answer[0][0] != CELL_INDEX:
            _test(answer)
        words = self._answer[:5] + counts + self._answer[8:72] + order
        return Table(self.data, self.page, words, self._nodes, self._cells)

    def _areas(self):
        return _area(NODE_RECORD * len(self._nodes)), _area(CELL_RECORD * len(self._cells))

    def total(self, dimension, leaf):
        """The total of the cells under a leaf, which is given by its leaf index: total, numbers, texts, missing, smallest, largest. Refused
        with 19 if there is no such dimension or leaf, with 20 if a number under it is no count."""
        if not (0 <= dimension < NO_PARENT and 0 <= leaf < NO_PARENT):
            raise Refused(NO_SUCH_LEAF, 0)
        answer = _area(TOTAL_ANSWER)
        nodes, cells = self._areas()
        _library.digarumbi_total(*_input(self.data), dimension, leaf, *answer, *nodes, *cells)
        _test(answer)
        return _total(answer[0][4:])

    def totals(self, dimension=None):
        """The totals under all leaves of a dimension, or of all dimensions: dimension, name (of the dimension), leaf, path, total, numbers,
        texts, missing, smallest, largest, refusal (20, or None), place. Where a leaf is refused what it would have is None."""
        if dimension is None:
            return [row for i in range(self._answer[2]) for row in self.totals(i)]
        if not 0 <= dimension < self._answer[2]:
            raise Refused(NO_SUCH_LEAF, 0)
        place, length, n, _ = self._dimension_records()[dimension]
        answer, totals = _area(TOTALS_ANSWER), _area(TOTAL_RECORD * n)
        nodes, cells = self._areas()
        _library.digarumbi_totals(*_input(self.data), dimension, *answer, *totals, *nodes, *cells)
        _test(answer)
        name, paths = self._text(place, length), self._leaf_paths()[dimension]
        rows = []
        for leaf, record in enumerate(_records(totals[0], TOTAL_RECORD, n)):
            row = {"dimension": dimension, "name": name, "leaf": leaf, "path": paths[leaf]}
            row.update(_leaf_total(record))
            rows.append(row)
        return rows


def _double(low, high):
    number = c_double()
    _library.digarumbi_number(low, high, byref(number))
    return number.value


def _total(words):
    """The nine words of a total."""
    low, high, numbers, texts, missing, smallest_low, smallest_high, largest_low, largest_high = words
    return {
        "total": low | high << 32,
        "numbers": numbers,
        "texts": texts,
        "missing": missing,
        "smallest": _double(smallest_low, smallest_high),
        "largest": _double(largest_low, largest_high),
    }


def _leaf_total(record):
    total = _total(record[2:])
    if record[0] == 0:
        return {**total, "refusal": None, "place": None}
    return {**dict.fromkeys(total), "refusal": record[0], "place": record[1]}


# ---- Looks ----

AREAS = ("title", "layers", "corner", "row labels", "column labels", "data", "caption", "footer")
SEPARATORS = tuple(
    (4 + 16 * i + 4 * j, f"{of} {kind}")
    for i, of in enumerate(("rows", "columns"))
    for j, kind in enumerate(("horizontal dimension", "vertical dimension", "horizontal category", "vertical category"))
) + tuple(
    (212 + 4 * i, name)
    for i, name in enumerate(
        ["title"]
        + [f"{frame} frame {side}" for frame in ("inner", "outer") for side in ("left", "right", "top", "bottom")]
        + ["data left", "data top"]
    )
)
AREA_FIELDS = (
    "color10 color0 shading valign halign decimal_offset left_margin right_margin top_margin bottom_margin font_size stretch "
    "rotation_angle weight italic underline strikethrough rtf_charset_number x"
).split()
FIRST_AREA, AREA_WORDS = 36, 22


def read_look(data, page=None):
    """Reads a look: a `Look`, or `Refused`. Names are text as those of `read_member`."""
    _test_page(page)
    data = bytes(data)
    answer = _area(LOOK_ANSWER)
    _library.digarumbi_read_look(*_input(data), *answer)
    _test(answer)
    return Look(data, page, answer[0][2:])


class Look:
    """What an accepted look holds, under the names of source document 002.

    `version` is always 2. `file_version` is that of the file, 0 or 2: a file of version 00 comes back as a version 02 look with 002's
    defaults, and then `default_continuation` is True and `continuation` the default, which equals the same letters stored in a file."""

    def __init__(self, data, page, words):
        self._data, self._page, self._words = data, page, words
        self.version, self.flags = words[0], words[1]
        self.file_version = data[LOOK_VERSION_PLACE]
        self.nested_row_labels, self.footnote_marker_subscripts = bool(words[2]), bool(words[3])
        self.default_continuation = words[256] == LOOK_DEFAULT_CONTINUATION
        self.continuation = LOOK_DEFAULT_CONTINUATION_LETTERS.decode() if self.default_continuation else self._name(256)
        self.min_col_width, self.max_col_width, self.min_row_height, self.max_row_height = words[258:262]

    def _name(self, word):
        place, length = self._words[word : word + 2]
        return _text(self._data[place : place + length], self._page)

    def areas(self):
        """One row an area: area (its name) and its fields."""
        return [{"area": name, **self._area_fields(FIRST_AREA + AREA_WORDS * i)} for i, name in enumerate(AREAS)]

    def _area_fields(self, first):
        fields = dict(zip(AREA_FIELDS, self._words[first:]))
        fields["font_size"] -= (fields["font_size"] >> 31) << 32
        for name in ("italic", "underline", "strikethrough"):
            fields[name] = bool(fields[name])
        fields["font_name"] = self._name(first + 19)
        fields["text_color"] = self._words[first + 21]
        return fields

    def separators(self):
        """One row a separator: separator (its name), drawn, color, style, width, which are None where it isn't drawn."""
        rows = []
        for first, name in SEPARATORS:
            drawn, color, style, width = self._words[first : first + 4]
            row = {"separator": name, "drawn": bool(drawn), "color": color, "style": style, "width": width}
            rows.append(row if drawn else {**dict.fromkeys(row), "separator": name, "drawn": False})
        return rows


def rewrite_look(data):
    """Reads a look and writes it, always as a version 02 file. An accepted version 02 file is written back byte for byte; a version 00
    file as the version 02 file of its look, 78 bytes longer."""
    out, answer = ctypes.create_string_buffer(LONGEST_LOOK), _area(REWRITE_ANSWER)
    _library.digarumbi_rewrite_look(*_input(data), out, LONGEST_LOOK, *answer)
    return _written(out, answer)


def look_sections(data):
    """Makes the Areas and Borders sections of a version 3 member from a look, whose file is of either version, as bytes. They can stand in
    the place of a member's own."""
    out, answer = ctypes.create_string_buffer(LONGEST_SECTIONS), _area(SECTIONS_ANSWER)
    _library.digarumbi_look_sections(*_input(data), out, LONGEST_SECTIONS, *answer)
    return _written(out, answer)


# ---- Text in old code pages ----


def decode(page, data):
    """Text in the code page 1250, 1251 or 1252, as a str."""
    data = bytes(data)
    return _convert(_library.digarumbi_to_utf8, page, data, 3 * len(data)).decode("utf-8")


def encode(page, text):
    """A str as text in the code page, as bytes."""
    data = text.encode("utf-8", "surrogatepass")
    return _convert(_library.digarumbi_from_utf8, page, data, len(data))


def _convert(convert, page, data, room):
    if not 0 <= page <= 0xFFFFFFFF:
        raise Refused(24, 0)
    out, answer = ctypes.create_string_buffer(max(room, 1)), _area(TEXT_ANSWER)
    convert(page, *_input(data), out, room, *answer)
    return _written(out, answer)


def _written(out, answer):
    """What an answer of refusal, place and length says was written."""
    _test(answer)
    return out.raw[: answer[0][2]]


# ---- Compressed case data ----

KINDS = {"numeric": 0, "string": 1}
# Bytes that are read at once, and elements that are decoded at once.
CUT = 65536
ROOM = 1024
MISSING_ELEMENT = struct.pack("<d", -1.7976931348623157e308)


def read_cases(source, kinds, bias=100, names=None):
    """The cases of a compressed data record (004, compression 1), one dict a case, as they arrive from a binary file, or from bytes.

    `kinds` is the kind of each element of a case, "numeric" or "string"; `names` are the keys, or else the elements' numbers. A numeric
    element is a float, None if it is missing; a string element is 8 bytes. A case that the end of the data cuts short is not given."""
    decoder = _Cases(source if hasattr(source, "read") else io.BytesIO(source), [KINDS[kind] for kind in kinds], bias)
    keys = list(range(len(decoder.kinds)) if names is None else names)
    if len(keys) != len(decoder.kinds):
        raise ValueError("as many names as kinds")
    return decoder.cases(keys)


class _Cases:
    def __init__(self, reader, kinds, bias):
        self.reader, self.kinds = reader, kinds
        self.state, answer = _area(CASES_STATE), _area(CASES_ANSWER)
        if not 0 <= bias <= 0xFFFFFFFF:
            raise Refused(21, 0)
        _library.digarumbi_cases_start(*_input(kinds), bias, *self.state, *answer)
        _test(answer)

    def cases(self, keys):
        elements = self.elements()
        while True:
            case = {key: _element(kind, data) for key, kind, data in zip(keys, self.kinds, elements)}
            if len(case) < len(keys):
                return
            yield case

    def elements(self):
        """The elements, 8 bytes each. What is refused raises after the elements before it."""
        offered, at_end = b"", False
        out, answer = ctypes.create_string_buffer(8 * ROOM), _area(CASES_FEED_ANSWER)
        while True:
            if not offered and not at_end:
                offered = self.reader.read(CUT)
                at_end = not offered
            _library.digarumbi_cases_feed(*self.state, *_input(offered), out, len(out), *answer)
            _, _, taken, written = answer[0]
            yield from (out.raw[at : at + 8] for at in range(0, 8 * written, 8))
            if written == 0:
                _test(answer)
            # What is offered and not taken lies behind a 252.
            if taken == 0 and written == 0 and (at_end or offered):
                return self.end()
            offered = offered[taken:]

    def end(self):
        answer = _area(CASES_ANSWER)
        _library.digarumbi_cases_end(*self.state, *answer)
        _test(answer)


def _element(kind, data):
    if kind == KINDS["string"]:
        return data
    return None if data == MISSING_ELEMENT else struct.unpack("<d", data)[0]


# ---- Points, pixels and font heights ----


def pt_to_px(points):
    """Points times 133/100, rounded up. Refused above 1,000,000."""
    return _converted(_library.digarumbi_pt_to_px, points, range(1 << 32))


def px_to_pt(pixels):
    """Pixels times 100/133, rounded down. Refused above 1,330,000."""
    return _converted(_library.digarumbi_px_to_pt, pixels, range(1 << 32))


def font_height(size):
    """The height of a font of a look in 96ths of an inch: the negative of its size. Refused for a size of 0 and above."""
    return _converted(_library.digarumbi_font_height, size, range(-(1 << 31), 1 << 31))


def _converted(convert, number, words):
    result = c_uint32()
    refusal = convert(number, byref(result)) if number in words else 7
    if refusal != 0:
        raise Refused(refusal, 0)
    return result.value
