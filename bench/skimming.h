// A file to another: chosen fields of the entries in which a field of integers lies in a range. For skim.cpp.
#pragma once
#include <algorithm>

#include "reading.h"
#include "writing.h"

struct Choice {
    vector<string> names;
    string test;
    uint64_t least = 0, greatest = UINT64_MAX;
};

struct Skimmer {
    Schema from;
    Writer to;
    vector<const Node*> chosen;  // of the file that is read, as those of the file that is written
    const Node* test = nullptr;
    vector<bool> needed;         // by column
    vector<Column> columns, kept;
    uint64_t entries = 0;
    Bytes image;

    void need(const Node& node) {
        if (node.kind != RECORD) needed[node.column] = true;
        if (node.kind == TEXT) needed[node.column + 1] = true;
        for (const Node& part : node.inside) need(part);
    }
    const Node& find(const string& name) {
        for (const Node& node : from.fields)
            if (from.rows[node.row].name == name) return node;
        fail("no field is named " + name);
    }
    void plan(const Choice& choice) {
        needed.resize(from.columns.size());
        for (const string& name : choice.names) {
            const Node& node = find(name);
            chosen.push_back(&node), need(node);
            to.schema.fields.push_back(node), to.schema.fields.back().name = name;
        }
        list_rows(to.schema, false);
        if (!choice.test.empty()) test = &find(choice.test), need(*test);
        for (const ColumnRow& row : to.schema.columns) kept.push_back({row, {}});
    }
    uint64_t number(const Column& c, size_t i) {
        switch (c.width()) {
            case 1: return c.get<uint8_t>(i);
            case 2: return c.get<uint16_t>(i);
            case 4: return c.get<uint32_t>(i);
            default: return c.get<uint64_t>(i);
        }
    }
    void copy(const Column& source, Column& c, size_t begin, size_t end) {
        const size_t width = source.width();
        c.need((end - begin) * width);
        memcpy(&c.bytes[c.used], &source.bytes[begin * width], (end - begin) * width);
        c.used += (end - begin) * width, c.count += end - begin;
    }
    // Elements of a field from one to before another.
    void move(const Node& source, const Node& node, size_t begin, size_t end) {
        if (node.kind == RECORD) {
            for (size_t i = 0; i < node.inside.size(); i++) move(source.inside[i], node.inside[i], begin, end);
            return;
        }
        const Column& c = columns[source.column];
        if (node.kind == FLAG || node.kind == NUMBER) return copy(c, kept[node.column], begin, end);
        check(node.kind != CHOICE, "variants aren't copied");
        for (size_t i = begin; i < end; i++) {
            const size_t first = i ? c.get<uint64_t>(i - 1) : 0, last = c.get<uint64_t>(i);
            if (node.kind == TEXT) copy(columns[source.column + 1], kept[node.column + 1], first, last);
            else move(source.inside[0], node.inside[0], first, last);
            const size_t count = node.kind == TEXT ? kept[node.column + 1].count : elements(kept, node.inside[0]);
            kept[node.column].push(uint64_t(count));
        }
    }
    void cluster(const Choice& choice, uint64_t count) {
        for (size_t i = 0; i < count; i++) {
            if (test) {
                const uint64_t value = number(columns[test->column], i);
                if (value < choice.least || value > choice.greatest) continue;
            }
            for (size_t k = 0; k < chosen.size(); k++) move(*chosen[k], to.schema.fields[k], i, i + 1);
            if (++entries == to.cluster) flush(to, 0, kept, entries, image), entries = 0;
        }
    }
};

static int skim_file(const char* out, const char* name, const Choice& choice) {
    const Outline o = attach(name);
    Skimmer s;
    s.from = o.schema, s.columns = o.columns;
    s.plan(choice);
    s.to.fd = open(out, O_RDWR | O_CREAT | O_TRUNC, 0666);
    check(s.to.fd >= 0, out);
    const Bytes header = header_of(s.to.schema);
    begin_file(s.to, header);
    uint64_t total = 0;
    for (const auto& [entries, pages] : o.clusters) {
        read_cluster(o.fd, pages, s.columns, &s.needed);
        s.cluster(choice, entries);
    }
    if (s.entries) flush(s.to, 0, s.kept, s.entries, s.image);
    for (const Cluster& cluster : s.to.clusters) total += cluster.entries;
    close_file(s.to, header);
    printf("clusters %zu entries %llu\n", s.to.clusters.size(), (unsigned long long)total);
    return 0;
}
