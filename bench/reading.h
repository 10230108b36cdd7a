// A file to columns, and to lines: its entries, printed. For program.cpp and skim.cpp.
#pragma once
#include <fcntl.h>
#include <unistd.h>

#include <charconv>
#include <memory>

#include "layout.h"

struct Cursor {
    const char *at, *end;
    template <class T> T low() {
        check(at + sizeof(T) <= end, "a frame is too short");
        T v;
        memcpy(&v, at, sizeof v);
        at += sizeof v;
        return v;
    }
    uint64_t high() { return __builtin_bswap64(low<uint64_t>()); }
    string text() {
        size_t n = low<uint32_t>();
        check(at + n <= end, "a text is too short");
        at += n;
        return string(at - n, n);
    }
    Cursor frame() {
        Cursor inside{at, end};
        int64_t size = inside.low<int64_t>();
        inside.end = at += size < 0 ? -size : size;
        check(at <= end, "a frame is too long");
        return inside;
    }
    Cursor list(size_t& count) {
        Cursor inside = frame();
        count = inside.low<uint32_t>();
        return inside;
    }
};

static void read_into(int fd, uint64_t place, char* bytes, size_t size) {
    for (size_t have = 0; have < size;) {
        ssize_t n = pread(fd, bytes + have, size - have, off_t(place + have));
        check(n > 0, "a read failed");
        have += size_t(n);
    }
}

static string read_at(int fd, uint64_t place, size_t size) {
    string bytes(size, 0);
    read_into(fd, place, &bytes[0], size);
    return bytes;
}

static string envelope_at(int fd, uint64_t place, size_t size, uint64_t kind) {
    string bytes = read_at(fd, place, size);
    check(size >= 16 && word_at(&bytes[0], 0) == (kind | size << 16), "an envelope is another one");
    check(sum(&bytes[0], size - 8) == word_at(&bytes[size - 8], 0), "the checksum of an envelope differs");
    return bytes;
}

static Cursor payload_of(const string& envelope) { return {&envelope[8], &envelope[envelope.size() - 8]}; }

static void read_header(const string& header, Schema& s) {
    Cursor payload = payload_of(header);
    payload.low<uint64_t>(), payload.text(), payload.text(), payload.text();
    size_t count;
    Cursor list = payload.list(count);
    vector<vector<uint32_t>> inside(count);
    for (uint32_t id = 0; id < count; id++) {
        Cursor record = list.frame();
        record.low<uint64_t>();
        FieldRow row{record.low<uint32_t>(), record.low<uint16_t>(), "", ""};
        record.low<uint16_t>(), row.name = record.text(), row.type = record.text();
        if (row.parent != id) inside.at(row.parent).push_back(id);
        s.rows.push_back(row);
    }
    vector<size_t> first(count, 0);
    list = payload.list(count);
    for (size_t i = 0; i < count; i++) {
        Cursor record = list.frame();
        s.columns.push_back({record.low<uint16_t>(), record.low<uint16_t>(), record.low<uint32_t>()});
        if (i == 0 || s.columns[i - 1].field != s.columns[i].field) first.at(s.columns[i].field) = i;
    }
    auto node_of = [&](auto& self, uint32_t id) -> Node {
        Node node;
        const FieldRow& row = s.rows[id];
        const Kind kinds[] = {NUMBER, LIST, RECORD, CHOICE};
        node.kind = row.type == "std::string" ? TEXT : kinds[row.role & 3], node.column = first[id];
        node.row = id, node.name = row.name, node.type = row.type;
        for (const Leaf& leaf : LEAVES)
            if (row.type == leaf.type) node.leaf = &leaf, node.kind = leaf.bits == 1 ? FLAG : NUMBER;
        for (uint32_t part : inside[id]) node.inside.push_back(self(self, part));
        return node;
    };
    for (uint32_t id = 0; id < s.rows.size(); id++)
        if (s.rows[id].parent == id) s.fields.push_back(node_of(node_of, id));
}

static void print_text(string& out, const char* text, size_t n) {
    out += '"';
    for (size_t i = 0; i < n; i++) {
        unsigned char c = (unsigned char)text[i];
        const char *from = "\"\\\b\f\n\r\t", *to = "\"\\bfnrt", *found = c ? strchr(from, c) : nullptr;
        char code[8];
        if (found) (out += '\\') += to[found - from];
        else if (c < 0x20) snprintf(code, sizeof code, "\\u%04x", c), out += code;
        else out += char(c);
    }
    out += '"';
}

struct Printer {
    const vector<Column>& columns;
    string& out;

    template <class T> void digits(T v) {
        char text[24];
        out.append(text, size_t(std::to_chars(text, text + sizeof text, v).ptr - text));
    }
    void number(const Leaf& leaf, const Column& c, size_t i) {
        switch (leaf.bits) {
            case 8: leaf.has_sign ? digits(int(c.get<int8_t>(i))) : digits(unsigned(c.get<uint8_t>(i))); break;
            case 16: leaf.has_sign ? digits(c.get<int16_t>(i)) : digits(c.get<uint16_t>(i)); break;
            case 32: leaf.has_sign ? digits(c.get<int32_t>(i)) : digits(c.get<uint32_t>(i)); break;
            default: leaf.has_sign ? digits(c.get<int64_t>(i)) : digits(c.get<uint64_t>(i));
        }
    }
    void values(const vector<Node>& nodes, size_t i) {
        out += '[';
        for (const Node& node : nodes) {
            if (&node != &nodes[0]) out += ',';
            value(node, i);
        }
        out += ']';
    }
    void value(const Node& node, size_t i) {
        if (node.kind == RECORD) return values(node.inside, i);
        const Column& c = columns[node.column];
        check(i < c.count, "a column is too short");
        if (node.kind == FLAG) {
            out += c.bytes[i] ? "true" : "false";
        } else if (node.kind == NUMBER) {
            number(*node.leaf, c, i);
        } else if (node.kind == CHOICE) {
            uint32_t tag;
            memcpy(&tag, &c.bytes[12 * i + 8], 4);
            if (tag == 0) return void(out += "null");
            out += '[', digits(tag), out += ',', value(node.inside.at(tag - 1), word_at(&c.bytes[12 * i], 0)), out += ']';
        } else {
            size_t from = i ? c.get<uint64_t>(i - 1) : 0, to = c.get<uint64_t>(i);
            if (node.kind == TEXT) {
                check(from <= to && to <= columns[node.column + 1].count, "an end doesn't fit");
                return print_text(out, columns[node.column + 1].bytes.data() + from, to - from);
            }
            out += '[';
            for (size_t j = from; j < to; j++) {
                if (j > from) out += ',';
                value(node.inside[0], j);
            }
            out += ']';
        }
    }
};

// The pages of a cluster into its columns, or of those alone that are needed.
static void read_cluster(int fd, Cursor pages, vector<Column>& columns, const vector<bool>* needed = nullptr) {
    for (size_t id = 0; id < columns.size(); id++) {
        Column& c = columns[id];
        size_t count;
        Cursor inner = pages.list(count);
        c.used = c.count = 0;
        if (needed && !(*needed)[id]) continue;
        for (; count > 0; count--) {
            int32_t n = inner.low<int32_t>();
            uint32_t size = inner.low<uint32_t>();
            string page = read_at(fd, inner.low<uint64_t>(), size + 8);
            check(sum(&page[0], size) == word_at(&page[size], 0), "the checksum of a page differs");
            check(n < 0 && c.page_size(size_t(-n)) == size, "a page has another size");
            take_page(&page[0], c, size_t(-n));
        }
    }
}

// What is told of a file before its pages: its schema, and of each cluster how many entries it has and where its pages lie.
struct Outline {
    int fd;
    Schema schema;
    vector<Column> columns;
    vector<std::unique_ptr<string>> page_lists;
    vector<std::pair<uint64_t, Cursor>> clusters;
};

static Outline attach(const char* name) {
    Outline o;
    o.fd = open(name, O_RDONLY);
    check(o.fd >= 0, name);
    string front = read_at(o.fd, 0, 226);
    check(front.compare(0, 4, "root") == 0, "the file is unfinished");
    string key = read_at(o.fd, __builtin_bswap64(word_at(&front[200], 0)), 113);
    string anchor = read_at(o.fd, __builtin_bswap64(word_at(&key[57 + 18], 0)) + 56, 78);
    check(sum(&anchor[6], 64) == __builtin_bswap64(word_at(&anchor[70], 0)), "the checksum of the anchor differs");
    Cursor places{&anchor[14], &anchor[70]};
    uint64_t header_at = places.high(), header_size = places.high();
    uint64_t footer_at = (places.high(), places.high()), footer_size = places.high();
    read_header(envelope_at(o.fd, header_at, header_size, HEADER), o.schema);
    for (const ColumnRow& row : o.schema.columns) o.columns.push_back({row, {}});
    string footer = envelope_at(o.fd, footer_at, footer_size, FOOTER);
    Cursor payload = payload_of(footer);
    payload.low<uint64_t>(), payload.low<uint64_t>(), payload.frame();
    size_t groups, clusters;
    Cursor list = payload.list(groups);
    for (; groups > 0; groups--) {
        Cursor group = list.frame();
        group.low<uint64_t>(), group.low<uint64_t>(), group.low<uint32_t>();
        uint64_t size = group.low<uint64_t>(), place = (group.low<uint32_t>(), group.low<uint64_t>());
        o.page_lists.push_back(std::make_unique<string>(envelope_at(o.fd, place, size, PAGE_LIST)));
        Cursor inside = payload_of(*o.page_lists.back());
        inside.low<uint64_t>();
        Cursor summaries = inside.list(clusters), pages = inside.list(clusters);
        for (; clusters > 0; clusters--) {
            Cursor summary = summaries.frame();
            size_t count;
            summary.low<uint64_t>();
            uint64_t entries = summary.low<uint64_t>();
            o.clusters.push_back({entries, pages.list(count)});
        }
    }
    return o;
}

static int print_entries(const char* name) {
    Outline o = attach(name);
    string out;
    for (auto& [entries, pages] : o.clusters) {
        read_cluster(o.fd, pages, o.columns);
        for (size_t i = 0; i < entries; i++) {
            Printer{o.columns, out}.values(o.schema.fields, i);
            out += '\n';
            if (out.size() >= 65536) fwrite(out.data(), 1, out.size(), stdout), out.clear();
        }
    }
    fwrite(out.data(), 1, out.size(), stdout);
    return 0;
}
