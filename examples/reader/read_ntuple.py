#!/usr/bin/env python3
"""Prints the entries of an RNTuple file, a line each, with Python's standard library alone. The lines are those of `ntuple entries`.

    python3 read_ntuple.py [--no-page-checksums] FILE

It is written from the RNTuple Binary Format Specification 1.0.0.0 and ROOT's layout of a TFile, apart from the program, so that
each can be held against the other. To learn the format, read container.py (bytes, the TFile, envelopes), then outline.py (fields,
columns, clusters, pages), and then this file, from pages to values. docs/INTEROP.md says which parts of the standard there are.

Checksums of pages take most of the time; the option leaves them out. A file with a fault ends with status 1 and a line on stderr,
behind the lines of the clusters before it.
"""
import itertools
import json
import struct
import sys

from container import Cursor, Fault, require
from outline import COLLECTION, COLUMN_TYPES, RECORD, SWITCH, VARIANT, is_known, read_outline
from xxh3 import xxh3


def merged(planes, count):
    """Split codings have the lowest bytes of all elements first, then all second bytes, and so on."""
    elements = bytearray(len(planes))
    width = len(planes) // count if count else 0
    for k in range(width):
        elements[k::width] = planes[k * count:(k + 1) * count]
    return elements


def decoded(page, count, letter, coding):
    """The elements of a page."""
    if coding == "bits":  # eight in a byte, the lowest first
        return [page[i // 8] >> i % 8 & 1 for i in range(count)]
    if coding == "pairs":  # an index of 8 bytes and a tag of 4
        return list(struct.iter_unpack("<" + letter, page))
    elements = struct.unpack(f"<{count}{letter}", page if coding == "plain" else merged(page, count))
    if coding == "zigzag":  # 0, -1, 1, -2, 2 and so on stand as 0, 1, 2, 3, 4
        return [element >> 1 ^ -(element & 1) for element in elements]
    if coding == "delta":  # the difference to the element before; the first of a page stands as it is
        most = (1 << 8 * struct.calcsize(letter)) - 1
        return list(itertools.accumulate(elements, lambda before, more: before + more & most))
    return list(elements)


def is_optional(field):
    """An optional value is a list of nothing or one, and is told by the name of its type. It stands in JSON as the value or `null`,
    but as a list where the value could be `null` itself."""
    if field.role != COLLECTION or not field.type_name.startswith(b"std::optional<"):
        return False
    return field.inside[0].role != VARIANT and not is_optional(field.inside[0])


def text_as_json(text):
    """A string, or the hex of bytes that aren't UTF-8."""
    try:
        return json.dumps(text.decode("utf-8"), ensure_ascii=False)
    except UnicodeDecodeError:
        return '{"hex":"' + text.hex() + '"}'


class Values:
    """The values of a cluster, as JSON. A call takes a field and how many values of it the cluster has: of a field at the top level
    as many as there are entries, and of one inside another as many as the columns of that one say."""

    def __init__(self, data, cluster, page_checksums):
        self.data, self.cluster, self.page_checksums = data, cluster, page_checksums

    def page(self, page, column):
        bits, letter, coding = COLUMN_TYPES[column.type]
        require(page.size == (page.count * bits + 7) // 8, f"the page at {page.place} is compressed")
        stored = Cursor(self.data, page.place, len(self.data))
        elements = stored.take(page.size)
        if page.has_checksum and self.page_checksums:
            require(xxh3(elements) == stored.number(8), f"the page at {page.place} has another checksum")
        return decoded(elements, page.count, letter, coding)

    def elements(self, column, count):
        """The elements of a column, of which there have to be so many."""
        pages = self.cluster.pages[column.number] if column.number < len(self.cluster.pages) else []
        if column.first > self.cluster.first:  # entries from before a late field have its zero
            require(column.first >= self.cluster.first + self.cluster.entries and not pages, "a late field begins inside a cluster")
            return [(0, 0) if column.type == SWITCH else 0] * count
        found = [element for page in pages for element in self.page(page, column)]
        require(len(found) == count, f"a column has {len(found)} elements in place of {count}")
        return found

    def spans(self, column, count):
        """An index column has the ends of lists among the elements inside, counted from the beginning of the cluster. What is
        answered is where each list begins and ends, and how many elements there are inside."""
        ends = self.elements(column, count)
        begins = [0] + ends[:-1]
        require(all(begin <= end for begin, end in zip(begins, ends)), "an end is below the one before")
        return list(zip(begins, ends)), ends[-1] if ends else 0

    def of(self, field, count):
        if field.role == RECORD:
            return ["[" + ",".join(parts) + "]" for parts in zip(*(self.of(part, count) for part in field.inside))]
        if field.role == COLLECTION:
            return self.of_collection(field, count)
        if field.role == VARIANT:
            return self.of_variant(field, count)
        if field.type_name == b"std::string":
            spans, total = self.spans(field.columns[0], count)
            characters = bytes(self.elements(field.columns[1], total))
            return [text_as_json(characters[begin:end]) for begin, end in spans]
        elements = self.elements(field.columns[0], count)
        if field.type_name == b"bool":
            return ["true" if element else "false" for element in elements]
        return [str(element) for element in elements]

    def of_collection(self, field, count):
        spans, total = self.spans(field.columns[0], count)
        inside = self.of(field.inside[0], total)
        if not is_optional(field):
            return ["[" + ",".join(inside[begin:end]) + "]" for begin, end in spans]
        require(all(end - begin <= 1 for begin, end in spans), "an optional value is more than one")
        return [inside[begin] if begin < end else "null" for begin, end in spans]

    def of_variant(self, field, count):
        """A switch has a tag, from 1 for the first alternative and 0 for none, and an index among the values of that alternative."""
        switches = self.elements(field.columns[0], count)
        totals = [0] * (len(field.inside) + 1)
        for index, tag in switches:
            require(tag < len(totals) and (tag == 0 or index == totals[tag]), "a switch doesn't lead to its value")
            totals[tag] += 1
        inside = [self.of(part, total) for part, total in zip(field.inside, totals[1:])]
        return [f"[{tag},{inside[tag - 1][index]}]" if tag else "null" for index, tag in switches]


def entries(data, page_checksums=True):
    """The line of each entry, cluster by cluster."""
    schema, clusters = read_outline(data)
    known = [field for field in schema.top if is_known(field)]
    for cluster in clusters:
        values = Values(data, cluster, page_checksums)
        columns = [values.of(field, cluster.entries) for field in known]
        for entry in zip(*columns) if known else [()] * cluster.entries:
            yield "[" + ",".join(entry) + "]\n"


def main(words):
    names = [word for word in words if word != "--no-page-checksums"]
    if len(names) != 1:
        print("usage: read_ntuple.py [--no-page-checksums] FILE", file=sys.stderr)
        return 2
    try:
        with open(names[0], "rb") as file:
            data = file.read()
        for line in entries(data, page_checksums=len(words) == 1):
            sys.stdout.buffer.write(line.encode())
    except (Fault, OSError) as fault:
        sys.stdout.buffer.flush()
        print(f"read_ntuple: {fault}", file=sys.stderr)
        return 1
    return 0


if __name__ == "__main__":
    sys.exit(main(sys.argv[1:]))
