// Lines of events to columns, and columns to a file: a thread for each input. For program.cpp.
#pragma once
#include <fcntl.h>
#include <unistd.h>

#include <charconv>
#include <condition_variable>
#include <mutex>
#include <thread>

#include "layout.h"

// ---- lines to columns ----

struct Line {
    const char* at;
    vector<Column>& columns;

    char peek() {
        while (*at == ' ' || *at == '\t' || *at == '\r') at++;
        return *at;
    }
    bool take(char c) { return peek() == c && at++; }
    void expect(char c) { check(take(c), "a line isn't that of an event"); }
    void word(const char* w) {
        check(strncmp(at, w, strlen(w)) == 0, "a line isn't that of an event");
        at += strlen(w);
    }
    uint64_t digits() {
        const char* from = at;
        uint64_t v = 0;
        bool fits = true;
        for (; *at >= '0' && *at <= '9'; at++) {
            uint64_t digit = uint64_t(*at - '0');
            fits = fits && v <= (UINT64_MAX - digit) / 10;
            v = 10 * v + digit;
        }
        check(at > from && fits && (*from != '0' || at == from + 1), "a number isn't one");
        return v;
    }
    void number(const Leaf& leaf, Column& c) {
        bool below = take('-');
        uint64_t v = digits(), most = leaf.bits == 64 ? UINT64_MAX : (uint64_t(1) << leaf.bits) - 1;
        if (leaf.has_sign) most = (most >> 1) + below;
        check(v <= most && (!below || (leaf.has_sign && v > 0)), "a number doesn't fit");
        if (below) v = -v;
        switch (leaf.bits) {
            case 8: c.push(uint8_t(v)); break;
            case 16: c.push(uint16_t(v)); break;
            case 32: c.push(uint32_t(v)); break;
            default: c.push(v);
        }
    }
    unsigned hex4() {
        unsigned v = 0;
        auto read = std::from_chars(at, at + 4, v, 16);
        check(read.ptr == at + 4, "an escape isn't one");
        at += 4;
        return v;
    }
    void escape(Column& c) {
        const char *from = "\"\\/bfnrt", *to = "\"\\/\b\f\n\r\t", *found = *at ? strchr(from, *at) : nullptr;
        if (found) {
            at++;
            return c.push(to[found - from]);
        }
        word("u");
        unsigned v = hex4();
        if (v >> 10 == 0xD800 >> 10) word("\\u"), v = 0x10000 + ((v & 0x3ff) << 10) + (hex4() & 0x3ff);
        if (v < 0x80) return c.push(char(v));
        int more = v < 0x800 ? 1 : v < 0x10000 ? 2 : 3;
        c.push(char(0xF00 >> more | v >> 6 * more));
        while (more-- > 0) c.push(char(0x80 | (v >> 6 * more & 0x3f)));
    }
    void text(Column& c) {
        expect('"');
        for (;;) {
            size_t run = strcspn(at, "\"\\\n");
            c.need(run);
            memcpy(&c.bytes[c.used], at, run);
            c.used += run, c.count += run, at += run;
            check(*at != '\n' && *at != 0, "a text has no end");
            if (*at++ == '"') return;
            escape(c);
        }
    }
    void choice(const Node& node, Column& c) {
        uint64_t index = 0;
        uint32_t tag = 0;
        if (peek() == 'n') {
            word("null");
        } else {
            expect('['), peek(), tag = uint32_t(digits()), expect(',');
            check(tag >= 1 && tag <= node.inside.size(), "a tag doesn't fit");
            index = elements(columns, node.inside[tag - 1]);
            value(node.inside[tag - 1]), expect(']');
        }
        c.need(12);
        memcpy(&c.bytes[c.used], &index, 8), memcpy(&c.bytes[c.used + 8], &tag, 4);
        c.used += 12, c.count++;
    }
    void values(const vector<Node>& nodes) {
        expect('[');
        for (size_t i = 0; i < nodes.size(); i++) {
            if (i) expect(',');
            value(nodes[i]);
        }
        expect(']');
    }
    void value(const Node& node) {
        Column& c = columns[node.column < columns.size() ? node.column : 0];
        switch (node.kind) {
            case FLAG: c.push(uint8_t(peek() == 't')), word(*at == 't' ? "true" : "false"); break;
            case NUMBER: peek(), number(*node.leaf, c); break;
            case TEXT: text(columns[node.column + 1]), c.push(uint64_t(columns[node.column + 1].count)); break;
            case LIST:
                expect('[');
                if (!take(']')) {
                    do value(node.inside[0]);
                    while (take(','));
                    expect(']');
                }
                c.push(uint64_t(elements(columns, node.inside[0])));
                break;
            case RECORD: values(node.inside); break;
            case CHOICE: choice(node, c); break;
        }
    }
};

// ---- writing ----

struct Cluster {
    uint64_t start, entries;
    vector<vector<uint64_t>> pages;  // by column, the elements of each
};

struct Writer {
    Schema schema;
    int fd = -1;
    bool staged = false;  // all page lists stand behind all clusters
    uint64_t cluster = 10000, page = 4096, group = 1000, end = 0;
    vector<size_t> order, done;
    vector<Cluster> clusters;
    uint64_t header_sum = 0, entry = 0;  // of the clusters that have a page list: the entries,
    size_t listed = 0;                   // how many there are,
    vector<uint64_t> before;             // and the elements of each column
    vector<string> groups;               // the rows of their groups
    std::mutex lock;
    std::condition_variable changed;
};

static void put_at(int fd, const string& bytes, size_t from, uint64_t at) {
    while (from < bytes.size()) {
        ssize_t n = pwrite(fd, &bytes[from], bytes.size() - from, off_t(at));
        check(n > 0, "a write failed");
        from += size_t(n), at += uint64_t(n);
    }
}

// The blob of the page list of the next group of clusters that have none yet, which stands at the end so far.
static Bytes take_list(Writer& w) {
    Bytes b, all, row;
    const uint64_t first_entry = w.entry;
    const size_t from = w.listed, to = w.listed = std::min(w.clusters.size(), from + size_t(w.group));
    b.low(w.header_sum);
    size_t list = b.list(to - from);
    for (size_t k = from; k < to; k++) {
        size_t record = b.record();
        b.low(w.entry), b.low(w.clusters[k].entries), b.end_record(record);
        w.entry += w.clusters[k].entries;
    }
    b.end_list(list);
    list = b.list(to - from);
    for (size_t k = from; k < to; k++) {
        const Cluster& cluster = w.clusters[k];
        uint64_t at = cluster.start + BLOB_KEY;
        size_t outer = b.list(cluster.pages.size());
        for (size_t i = 0; i < cluster.pages.size(); i++) {
            const uint64_t first = w.before[i];
            size_t inner = b.list(cluster.pages[i].size());
            for (uint64_t n : cluster.pages[i]) {
                uint64_t size = (w.schema.columns[i].bits * n + 7) / 8;
                b.low(-int32_t(n)), b.low(uint32_t(size)), b.low(at);
                at += size + 8, w.before[i] += n;
            }
            b.low(first), b.low(uint32_t(0)), b.end_list(inner);
        }
        b.end_list(outer);
    }
    b.end_list(list);
    const Bytes object = envelope(PAGE_LIST, b);
    add_blob(all, w.end, object);
    size_t record = row.record();
    row.low(first_entry), row.low(w.entry - first_entry), row.low(uint32_t(to - from));
    row.low(uint64_t(object.size())), row.low(uint32_t(object.size())), row.low(w.end + BLOB_KEY), row.end_record(record);
    w.groups.push_back(row);
    w.end += all.size();
    return all;
}

// Puts the image of a cluster behind what is written, once it is its turn, and the page list of a full group in front of it.
static void commit(Writer& w, size_t context, Cluster& cluster, Bytes& image) {
    Bytes list;
    uint64_t list_at;
    {
        std::unique_lock<std::mutex> held(w.lock);
        if (!w.order.empty()) w.changed.wait(held, [&] { return w.order.at(w.clusters.size()) == context; });
        list_at = w.end;
        if (!w.staged && w.clusters.size() - w.listed == w.group) list = take_list(w);
        cluster.start = w.end;
        w.end += image.size();
        w.clusters.push_back(cluster);
    }
    w.changed.notify_all();
    Bytes key;
    key.key(image.size() - BLOB_KEY, cluster.start, 100, "RBlob", "");
    image.replace(0, BLOB_KEY, key);
    if (!list.empty()) put_at(w.fd, list, 0, list_at);
    put_at(w.fd, image, 0, cluster.start);
}

static void flush(Writer& w, size_t context, vector<Column>& columns, uint64_t entries, Bytes& image) {
    image.assign(BLOB_KEY, 0);
    Cluster cluster{0, entries, {}};
    for (Column& c : columns) {
        cluster.pages.emplace_back();
        for (size_t from = 0; from < c.count; from += w.page) {
            cluster.pages.back().push_back(std::min(w.page, c.count - from));
            add_page(image, c, from, cluster.pages.back().back());
        }
        c.used = c.count = 0;
    }
    commit(w, context, cluster, image);
}

static void write_input(Writer& w, size_t context, const char* name) {
    FILE* file = fopen(name, "r");
    check(file, name);
    vector<Column> columns;
    for (const ColumnRow& row : w.schema.columns) columns.push_back({row, {}});
    Bytes image;
    char* buffer = nullptr;
    size_t room = 0;
    uint64_t entries = 0;
    for (ssize_t n; (n = getline(&buffer, &room, file)) > 0;) {
        if (buffer[n - 1] == '\n') buffer[n - 1] = 0;
        Line line{buffer, columns};
        if (line.peek() == 0) continue;
        line.values(w.schema.fields);
        check(line.peek() == 0, "a line goes on behind its event");
        if (++entries == w.cluster) flush(w, context, columns, entries, image), entries = 0;
    }
    if (entries) flush(w, context, columns, entries, image);
    free(buffer), fclose(file);
}

static Bytes front_of(uint64_t end, uint64_t free, uint64_t keys) {
    Bytes b;
    b += "root", b.high(uint32_t(1063400)), b.high(uint32_t(100)), b.high(end), b.high(free);
    b.high(uint32_t(end ? 71 : 0)), b.high(uint32_t(1)), b.high(uint32_t(66)), b.push_back(8), b.append(16, 0), b.high(uint16_t(1));
    b.resize(100);
    b.key(73, 100, 0, "TFile", "events.root"), b.short_text("events.root"), b.short_text("");
    b.high(uint16_t(1005)), b.high(uint64_t(0x0042000000420000)), b.high(uint32_t(113)), b.high(uint32_t(66));
    b.high(uint64_t(100)), b.high(uint64_t(0)), b.high(keys), b.high(uint16_t(1)), b.resize(226);
    b[0] = 0;
    return b;
}

// The page lists that are left, footer, anchor, and the lists of keys and of free pieces; then file header and directory, and at last the
// first byte.
static void close_file(Writer& w, const Bytes& header) {
    const uint64_t start = w.end;
    Bytes tail, groups;
    while (w.clusters.size() > w.listed) tail += take_list(w);
    size_t list = groups.list(w.groups.size());
    for (const string& row : w.groups) groups += row;
    groups.end_list(list);
    Bytes footer;
    footer.low(uint64_t(0)), footer.low(w.header_sum), footer.low(uint64_t(8)), footer += groups;
    footer = envelope(FOOTER, footer);
    const uint64_t footer_at = start + tail.size();
    add_blob(tail, footer_at, footer);
    const uint64_t anchor = start + tail.size(), keys = anchor + 134, free = keys + 113, end = free + 71;
    Bytes anchor_key, fields;
    anchor_key.key(78, anchor, 100, "ROOT::RNTuple", "events");
    fields.high(uint64_t(1) << 48);
    fields.high(uint64_t(226 + BLOB_KEY)), fields.high(uint64_t(header.size())), fields.high(uint64_t(header.size()));
    fields.high(footer_at + BLOB_KEY), fields.high(uint64_t(footer.size())), fields.high(uint64_t(footer.size()));
    fields.high(uint64_t(1) << 30);
    tail += anchor_key, tail.high(uint32_t(0x40000042)), tail.high(uint16_t(2)), tail += fields;
    tail.high(sum(fields.data(), fields.size()));
    tail.key(60, keys, 100, "TFile", "events.root"), tail.high(uint32_t(1)), tail += anchor_key;
    tail.key(18, free, 100, "TFile", "events.root"), tail.high(uint16_t(1001)), tail.high(end);
    tail.high(uint64_t(end < 2000000000 ? 2000000000 : end + 1000000000));
    put_at(w.fd, tail, 0, start);
    put_at(w.fd, front_of(end, free, keys), 1, 1), fsync(w.fd);
    put_at(w.fd, "r", 0, 0), fsync(w.fd);
}

static void begin_file(Writer& w, const Bytes& header) {
    Bytes begun = front_of(0, 0, 0);
    add_blob(begun, 226, header);
    put_at(w.fd, begun, 0, 0), fsync(w.fd);
    w.end = begun.size();
    w.header_sum = word_at(&header[header.size() - 8], 0), w.before.resize(w.schema.columns.size());
}

static int write_file(Writer& w, bool plain, const vector<char*>& words) {
    check(words.size() >= 3, "words are missing");
    w.schema = schema_of(words[1], plain);
    w.fd = open(words[0], O_RDWR | O_CREAT | O_TRUNC, 0666);
    check(w.fd >= 0, words[0]);
    Bytes header = header_of(w.schema);
    begin_file(w, header);
    vector<std::thread> threads;
    for (size_t i = 2; i < words.size(); i++) threads.emplace_back(write_input, std::ref(w), i - 2, words[i]);
    for (std::thread& thread : threads) thread.join();
    close_file(w, header);
    return 0;
}
