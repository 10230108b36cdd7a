// How the file lies: its bytes, frames and keys, the rows of its schema, and the pages of its columns. For program.cpp.
#pragma once
#include <cstdint>
#include <cstdio>
#include <cstdlib>
#include <cstring>
#include <string>
#include <vector>

#include "sum.h"

using std::string;
using std::vector;

[[noreturn]] static void fail(const string& why) {
    fprintf(stderr, "program: %s\n", why.c_str());
    exit(1);
}

static void check(bool holds, const char* why) {
    if (!holds) fail(why);
}

// ---- bytes, frames and keys ----

struct Bytes : string {
    template <class T> void low(T v) { append((const char*)&v, sizeof v); }  // the lowest byte first
    template <class T> void high(T v) {
        for (int k = sizeof v - 1; k >= 0; k--) push_back(char(v >> 8 * k));
    }
    void text(const string& t) {
        low(uint32_t(t.size()));
        append(t);
    }
    void short_text(const string& t) {
        push_back(char(t.size()));
        append(t);
    }
    size_t record() {
        low(int64_t(0));
        return size() - 8;
    }
    size_t list(size_t count) {
        low(int64_t(0));
        low(uint32_t(count));
        return size() - 12;
    }
    void end_record(size_t at) { set(at, int64_t(size() - at)); }
    void end_list(size_t at) { set(at, -int64_t(size() - at)); }
    void set(size_t at, int64_t v) { memcpy(&(*this)[at], &v, 8); }
    void key(size_t object, uint64_t at, uint64_t directory, const string& type, const string& name) {
        uint16_t len = uint16_t(37 + type.size() + name.size());
        high(uint32_t(len + object)), high(uint16_t(1004)), high(uint32_t(object)), high(uint32_t(0x00420000)), high(len);
        high(uint16_t(1)), high(at), high(directory), short_text(type), short_text(name), short_text("");
    }
};

enum { BLOB_KEY = 42, HEADER = 1, FOOTER = 2, PAGE_LIST = 3 };

static Bytes envelope(int kind, const Bytes& payload) {
    Bytes all;
    all.low(uint64_t(kind) | uint64_t(payload.size() + 16) << 16);
    all += payload;
    all.low(sum(all.data(), all.size()));
    return all;
}

static void add_blob(Bytes& to, uint64_t at, const Bytes& object) {
    to.key(object.size(), at, 100, "RBlob", "");
    to += object;
}

// ---- schemas ----

enum Kind { FLAG, NUMBER, TEXT, LIST, RECORD, CHOICE };

struct Leaf {
    const char *word, *type;
    uint16_t plain, split, bits;
    bool has_sign;
};
static const Leaf LEAVES[] = {
    {"bool", "bool", 0x00, 0x00, 1, false},           {"char", "char", 0x02, 0x02, 8, false},
    {"byte", "std::byte", 0x01, 0x01, 8, false},      {"i8", "std::int8_t", 0x03, 0x03, 8, true},
    {"u8", "std::uint8_t", 0x04, 0x04, 8, false},     {"i16", "std::int16_t", 0x05, 0x11, 16, true},
    {"u16", "std::uint16_t", 0x06, 0x12, 16, false},  {"i32", "std::int32_t", 0x07, 0x13, 32, true},
    {"u32", "std::uint32_t", 0x08, 0x14, 32, false},  {"i64", "std::int64_t", 0x09, 0x15, 64, true},
    {"u64", "std::uint64_t", 0x0A, 0x16, 64, false},
};

struct Node {
    Kind kind = NUMBER;
    const Leaf* leaf = nullptr;
    string name, type;
    vector<Node> inside;
    size_t column = 0;  // its first one
    size_t row = 0;     // of a file that was read
};

struct FieldRow {
    uint32_t parent;
    uint16_t role;
    string name, type;
};
struct ColumnRow {
    uint16_t code, bits;
    uint32_t field;
};
struct Schema {
    vector<Node> fields;
    vector<FieldRow> rows;
    vector<ColumnRow> columns;
};

static Node type_at(const string& line, size_t& at) {
    size_t from = at;
    while (at < line.size() && isalnum(line[at])) at++;
    const string word = line.substr(from, at - from);
    Node node;
    for (const Leaf& leaf : LEAVES)
        if (word == leaf.word) {
            node.kind = leaf.bits == 1 ? FLAG : NUMBER, node.leaf = &leaf, node.type = leaf.type;
            return node;
        }
    if (word == "string") {
        node.kind = TEXT, node.type = "std::string";
        return node;
    }
    node.kind = word == "vec" ? LIST : word == "var" ? CHOICE : RECORD;
    string parts;
    bool has_name = word != "rec";
    do {
        from = ++at;
        string name = "_" + std::to_string(node.inside.size());
        if (word == "rec") at = line.find(':', from) + 1, name = line.substr(from, at - 1 - from);
        node.inside.push_back(type_at(line, at));
        node.inside.back().name = name;
        has_name = has_name && !node.inside.back().type.empty();
        parts += (parts.empty() ? "" : ",") + node.inside.back().type;
    } while (line[at] == ',');
    at++;
    if (has_name) node.type = (word == "vec" ? "std::vector<" : word == "var" ? "std::variant<" : "std::tuple<") + parts + ">";
    return node;
}

// Numbers fields breadth first, and columns by field.
static void list_rows(Schema& s, bool plain) {
    struct Listed {
        Node* node;
        uint32_t parent;
    };
    vector<Listed> listed;
    for (Node& node : s.fields) listed.push_back({&node, uint32_t(listed.size())});
    for (uint32_t id = 0; id < listed.size(); id++) {
        Node& node = *listed[id].node;
        const uint16_t roles[] = {0, 0, 0, 1, 2, 3};
        s.rows.push_back({listed[id].parent, roles[node.kind], node.name, node.type});
        node.column = s.columns.size();
        if (node.leaf) s.columns.push_back({plain ? node.leaf->plain : node.leaf->split, node.leaf->bits, id});
        if (node.kind == TEXT || node.kind == LIST) s.columns.push_back({uint16_t(plain ? 0x0F : 0x1B), 64, id});
        if (node.kind == TEXT) s.columns.push_back({0x02, 8, id});
        if (node.kind == CHOICE) s.columns.push_back({0x10, 96, id});
        for (Node& part : node.inside) listed.push_back({&part, id});
    }
}

static Schema schema_of(const char* name, bool plain) {
    FILE* file = fopen(name, "r");
    check(file, name);
    Schema s;
    char* buffer = nullptr;
    size_t room = 0;
    while (getline(&buffer, &room, file) > 0) {
        const string line = buffer;
        size_t from = line.find_first_not_of(" \t\r\n"), end = line.find_first_of(" \t", from);
        if (from == string::npos) continue;
        size_t at = line.find_first_not_of(" \t", end);
        s.fields.push_back(type_at(line, at));
        s.fields.back().name = line.substr(from, end - from);
    }
    free(buffer), fclose(file);
    list_rows(s, plain);
    return s;
}

static Bytes header_of(const Schema& s) {
    Bytes b;
    b.low(uint64_t(0)), b.text("events"), b.text(""), b.text("ntuple_tool 1");
    size_t list = b.list(s.rows.size());
    for (const FieldRow& row : s.rows) {
        size_t record = b.record();
        b.low(uint64_t(0)), b.low(row.parent), b.low(row.role), b.low(uint16_t(0));
        b.text(row.name), b.text(row.type), b.text(""), b.text(""), b.end_record(record);
    }
    b.end_list(list);
    list = b.list(s.columns.size());
    for (const ColumnRow& row : s.columns) {
        size_t record = b.record();
        b.low(row.code), b.low(row.bits), b.low(row.field), b.low(uint32_t(0)), b.end_record(record);
    }
    b.end_list(list);
    for (int i = 0; i < 2; i++) b.end_list(b.list(0));
    return envelope(HEADER, b);
}

// ---- columns and pages ----

// The elements of a column in a cluster, each at its own width; a flag takes a byte.
struct Column {
    ColumnRow row;
    vector<char> bytes;
    size_t used = 0, count = 0;
    size_t width() const { return row.bits == 1 ? 1 : row.bits / 8; }
    size_t page_size(size_t n) const { return (row.bits * n + 7) / 8; }
    void need(size_t more) {
        if (used + more > bytes.size()) bytes.resize(2 * (used + more) + 4096);
    }
    template <class T> void push(T v) {
        need(sizeof v);
        memcpy(&bytes[used], &v, sizeof v);
        used += sizeof v, count++;
    }
    template <class T> T get(size_t i) const {
        T v;
        memcpy(&v, &bytes[i * sizeof v], sizeof v);
        return v;
    }
};

template <class T> static void add_split(Bytes& to, const T* values, size_t n, bool zigzag, bool delta) {
    size_t at = to.size();
    to.resize(at + n * sizeof(T));
    for (size_t i = 0; i < n; i++) {
        T v = delta && i ? T(values[i] - values[i - 1]) : values[i];
        if (zigzag) v = T(v << 1) ^ (v >> (8 * sizeof(T) - 1) ? T(-1) : T(0));
        for (size_t k = 0; k < sizeof(T); k++) to[at + k * n + i] = char(v >> 8 * k);
    }
}

template <class T> static void take_split(const char* from, T* values, size_t n, bool zigzag, bool delta) {
    for (size_t i = 0; i < n; i++) {
        T v = 0;
        for (size_t k = 0; k < sizeof(T); k++) v |= T(T(uint8_t(from[k * n + i])) << 8 * k);
        if (zigzag) v = T(v >> 1) ^ (v & 1 ? T(-1) : T(0));
        values[i] = delta && i ? T(v + values[i - 1]) : v;
    }
}

static void add_page(Bytes& to, const Column& c, size_t from, size_t n) {
    size_t at = to.size();
    const char* bytes = &c.bytes[from * c.width()];
    switch (c.row.code) {
        case 0x00:
            to.resize(at + (n + 7) / 8);
            for (size_t i = 0; i < n; i++) to[at + i / 8] |= char(bytes[i] << i % 8);
            break;
        case 0x11: case 0x12: add_split(to, (const uint16_t*)bytes, n, c.row.code == 0x11, false); break;
        case 0x13: case 0x14: add_split(to, (const uint32_t*)bytes, n, c.row.code == 0x13, false); break;
        case 0x15: case 0x16: case 0x1B: add_split(to, (const uint64_t*)bytes, n, c.row.code == 0x15, c.row.code == 0x1B); break;
        default: to.append(bytes, n * c.width());
    }
    to.low(sum(&to[at], to.size() - at));
}

static void take_page(const char* page, Column& c, size_t n) {
    c.need(n * c.width());
    char* bytes = &c.bytes[c.used];
    switch (c.row.code) {
        case 0x00:
            for (size_t i = 0; i < n; i++) bytes[i] = page[i / 8] >> i % 8 & 1;
            break;
        case 0x11: case 0x12: take_split(page, (uint16_t*)bytes, n, c.row.code == 0x11, false); break;
        case 0x13: case 0x14: take_split(page, (uint32_t*)bytes, n, c.row.code == 0x13, false); break;
        case 0x15: case 0x16: case 0x1B: take_split(page, (uint64_t*)bytes, n, c.row.code == 0x15, c.row.code == 0x1B); break;
        default: memcpy(bytes, page, n * c.width());
    }
    c.used += n * c.width(), c.count += n;
}

static size_t elements(const vector<Column>& columns, const Node& node) {
    return node.kind == RECORD ? elements(columns, node.inside[0]) : columns[node.column].count;
}
