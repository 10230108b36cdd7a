"""What header, footer and page lists say: the fields with their columns, and the clusters with their pages.

Fields are a tree. The values of a field lie in its columns, each a list of elements of one type. The entries of a file lie in
clusters, and a cluster has for each column the pages with the elements of its entries.
"""
from dataclasses import dataclass, field as made_by
from typing import List

from container import FOOTER, HEADER, PAGE_LIST, open_envelope, read_anchor, require

LEAF, COLLECTION, RECORD, VARIANT = 0, 1, 2, 3  # roles of fields
BIT, BYTE, CHAR, SWITCH = 0x00, 0x01, 0x02, 0x10  # some types of columns
INDEX_TYPES = (0x0E, 0x0F, 0x1A, 0x1B)

# For each type of a column: the bits of an element, its letter for `struct`, and how the elements of a page are coded.
COLUMN_TYPES = {
    BIT: (1, "", "bits"), BYTE: (8, "B", "plain"), CHAR: (8, "B", "plain"),
    0x03: (8, "b", "plain"), 0x05: (16, "h", "plain"), 0x07: (32, "i", "plain"), 0x09: (64, "q", "plain"),  # Int8 to Int64
    0x04: (8, "B", "plain"), 0x06: (16, "H", "plain"), 0x08: (32, "I", "plain"), 0x0A: (64, "Q", "plain"),  # UInt8 to UInt64
    0x11: (16, "H", "zigzag"), 0x13: (32, "I", "zigzag"), 0x15: (64, "Q", "zigzag"),  # SplitInt16 to SplitInt64
    0x12: (16, "H", "split"), 0x14: (32, "I", "split"), 0x16: (64, "Q", "split"),  # SplitUInt16 to SplitUInt64
    0x0E: (32, "I", "plain"), 0x0F: (64, "Q", "plain"), 0x1A: (32, "I", "delta"), 0x1B: (64, "Q", "delta"),  # Index, SplitIndex
    SWITCH: (96, "QI", "pairs"),
}

# The types of the one column that a field without others inside may have, by the name of its type.
LEAVES = {
    b"bool": (BIT,), b"char": (CHAR,), b"std::byte": (BYTE,), b"std::int8_t": (0x03,), b"std::uint8_t": (0x04,),
    b"std::int16_t": (0x05, 0x11), b"std::int32_t": (0x07, 0x13), b"std::int64_t": (0x09, 0x15),
    b"std::uint16_t": (0x06, 0x12), b"std::uint32_t": (0x08, 0x14), b"std::uint64_t": (0x0A, 0x16),
}


@dataclass
class Column:
    number: int
    type: int
    bits: int
    flags: int
    representation: int
    first: int  # the index of its first element: above 0 where its field was added behind entries
    elements: int = 0  # in the clusters that were read so far


@dataclass
class Field:
    role: int
    flags: int
    type_name: bytes
    columns: List[Column] = made_by(default_factory=list)
    inside: List["Field"] = made_by(default_factory=list)


@dataclass
class Page:
    count: int
    has_checksum: bool
    size: int
    place: int


@dataclass
class Cluster:
    first: int
    entries: int
    pages: List[List[Page]]  # by the number of the column


class Schema:
    """Fields and columns by their numbers, and the fields at the top level."""

    def __init__(self):
        self.fields, self.columns, self.top = [], [], []

    def add_description(self, cursor):
        """Adds what the header has, or the footer of fields that were added late. Numbers go on from those before."""
        count, rows = cursor.items()
        for _ in range(count):
            self.add_field(rows.record())
        count, rows = cursor.items()
        for _ in range(count):
            self.add_column(rows.record())
        cursor.items()  # alias columns
        cursor.items()  # extra type information

    def add_field(self, row):
        number = len(self.fields)
        row.take(4 + 4)  # versions of the field and of its type
        parent, role, flags = row.number(4), row.number(2), row.number(2)
        row.string()  # its name; alias and description stand behind the name of its type
        require(parent <= number, "a field stands before its parent")
        self.fields.append(Field(role, flags, row.string()))
        siblings = self.top if parent == number else self.fields[parent].inside
        siblings.append(self.fields[number])

    def add_column(self, row):
        kind, bits, owner, flags, representation = (row.number(size) for size in (2, 2, 4, 2, 2))
        require(owner < len(self.fields), "a column is of no field")
        column = Column(len(self.columns), kind, bits, flags, representation, row.number(8) if flags & 1 else 0)
        self.columns.append(column)
        self.fields[owner].columns.append(column)


def is_known(field, principal=True, levels=64):
    """Whether the values of a field can be read here; where not, it is left out. A column of a field that lies in records alone is
    principal, which is to say that it has an element for each entry; only such a one begins behind entry 0."""
    types, inside = [column.type for column in field.columns], len(field.inside)
    if field.role == LEAF and field.type_name == b"std::string":
        fits = len(types) == 2 and types[0] in INDEX_TYPES and types[1] == CHAR and inside == 0
    elif field.role == LEAF:
        fits = len(types) == 1 and types[0] in LEAVES.get(field.type_name, ()) and inside == 0
    elif field.role == COLLECTION:
        fits = len(types) == 1 and types[0] in INDEX_TYPES and inside == 1
    elif field.role == RECORD:
        fits = not types and inside >= 1
    else:
        fits = field.role == VARIANT and types == [SWITCH] and inside >= 1
    for place, column in enumerate(field.columns):
        fits = fits and column.bits == COLUMN_TYPES[column.type][0] and column.flags <= 1 and column.representation == 0
        fits = fits and (column.first == 0 or column.first < 1 << 63 and principal and place == 0)
    fits = fits and levels > 0 and (field.flags == 0 or field.flags == 4 and field.role == RECORD)
    return fits and all(is_known(part, principal and field.role == RECORD, levels - 1) for part in field.inside)


def read_pages(lists, column):
    """The pages of a column in a cluster."""
    pages = []
    count, items = lists.items()
    for _ in range(count):
        elements = items.number(4, signed=True)  # below zero where a checksum follows the page
        pages.append(Page(abs(elements), elements < 0, *items.locator()))
    offset = items.number(8, signed=True)  # how many elements stand before them; below zero in a column that isn't used
    elements = sum(page.count for page in pages)
    require(elements == 0 or offset < 0 or offset == column.first + column.elements, f"the element offset before {items.at} is another")
    column.elements += elements
    return pages


def read_page_list(cursor, first, columns):
    """The clusters of a group: first a summary of each, and then the pages of each by column."""
    spans, clusters = [], []
    count, summaries = cursor.items()
    for _ in range(count):
        summary = summaries.record()
        spans.append((summary.number(8), summary.number(8)))  # the high 8 bits of the second number are flags
        require(spans[-1][0] == first and spans[-1][1] < 1 << 56, f"a cluster of flags, or not of entry {first}")
        first += spans[-1][1]
    count, listed = cursor.items()
    require(count == len(spans), "there are other clusters than summaries")
    for span in spans:
        count, lists = listed.items()
        require(count <= len(columns), "there are pages of no column")  # there may be fewer: a late field has none before it is added
        clusters.append(Cluster(*span, [read_pages(lists, column) for column in columns[:count]]))
    return clusters


def read_outline(data):
    """All of a file but its pages: the schema and the clusters."""
    header_link, footer_link = read_anchor(data)
    header, checksum = open_envelope(data, HEADER, *header_link)
    require(header.number(8) == 0, "the header has feature flags")
    for _ in ("name", "description", "writer"):
        header.string()
    schema, clusters, first = Schema(), [], 0
    schema.add_description(header)
    footer, _ = open_envelope(data, FOOTER, *footer_link)
    require(footer.number(8) == 0, "the footer has feature flags")
    require(footer.number(8) == checksum, "the footer is that of another header")
    extension = footer.record()
    if extension.at < extension.end:
        schema.add_description(extension)
    count, groups = footer.items()
    for _ in range(count):
        group = groups.record()
        begin, span, size, length = group.number(8), group.number(8), group.number(4), group.number(8)
        stored, place = group.locator()
        page_list, _ = open_envelope(data, PAGE_LIST, place, stored, length)
        require(page_list.number(8) == checksum, "a page list is that of another header")
        listed = read_page_list(page_list, first, schema.columns)
        require(begin == first and size == len(listed) and span == sum(of.entries for of in listed), "a group has other clusters")
        clusters += listed
        first += span
    return schema, clusters
