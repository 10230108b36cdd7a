// A file to totals: of each field of integers, characters or bytes, printed. For program.cpp.
#pragma once
#include <atomic>
#include <thread>

#include "reading.h"

struct Total {
    uint64_t count = 0;
    __int128 sum = 0, least = 0, greatest = 0;

    void take(const Total& other) {
        if (other.count == 0) return;
        least = count ? std::min(least, other.least) : other.least;
        greatest = count ? std::max(greatest, other.greatest) : other.greatest;
        count += other.count, sum += other.sum;
    }
};

// A sum of 64 bits holds the narrower numbers of a cluster.
template <class T> static Total total_of(const Column& c) {
    Total t;
    if (c.count == 0) return t;
    std::conditional_t<sizeof(T) == 8, __int128, int64_t> sum = 0;
    T least = c.get<T>(0), greatest = least;
    for (size_t i = 0; i < c.count; i++) {
        T v = c.get<T>(i);
        sum += v, least = std::min(least, v), greatest = std::max(greatest, v);
    }
    t.count = c.count, t.sum = sum, t.least = least, t.greatest = greatest;
    return t;
}

static Total total_of(const Leaf& leaf, const Column& c) {
    switch (leaf.bits) {
        case 8: return leaf.has_sign ? total_of<int8_t>(c) : total_of<uint8_t>(c);
        case 16: return leaf.has_sign ? total_of<int16_t>(c) : total_of<uint16_t>(c);
        case 32: return leaf.has_sign ? total_of<int32_t>(c) : total_of<uint32_t>(c);
        default: return leaf.has_sign ? total_of<int64_t>(c) : total_of<uint64_t>(c);
    }
}

static string digits_of(__int128 v) {
    string text;
    unsigned __int128 left = v < 0 ? -(unsigned __int128)v : v;
    do text.insert(text.begin(), char('0' + int(left % 10)));
    while (left /= 10);
    return v < 0 ? "-" + text : text;
}

// The threads take one cluster after the other.
static int print_totals(const char* name, size_t threads) {
    Outline o = attach(name);
    struct Counted {
        uint32_t id;
        size_t column;
        const Leaf* leaf;
    };
    vector<Counted> fields;
    for (size_t i = 0; i < o.schema.columns.size(); i++)
        for (const Leaf& leaf : LEAVES) {
            uint32_t id = o.schema.columns[i].field;
            if (o.schema.rows[id].type == leaf.type && leaf.bits > 1) fields.push_back({id, i, &leaf});
        }
    std::sort(fields.begin(), fields.end(), [](auto& a, auto& b) { return a.id < b.id; });
    vector<vector<Total>> totals(threads, vector<Total>(fields.size()));
    std::atomic<size_t> next{0};
    auto work = [&](size_t me) {
        vector<Column> columns = o.columns;
        for (size_t k; (k = next++) < o.clusters.size();) {
            read_cluster(o.fd, o.clusters[k].second, columns);
            for (size_t i = 0; i < fields.size(); i++) totals[me][i].take(total_of(*fields[i].leaf, columns[fields[i].column]));
        }
    };
    vector<std::thread> others;
    for (size_t i = 1; i < threads; i++) others.emplace_back(work, i);
    work(0);
    for (std::thread& other : others) other.join();
    string out;
    for (size_t i = 0; i < fields.size(); i++) {
        Total t;
        for (auto& part : totals) t.take(part[i]);
        out += "[" + std::to_string(fields[i].id) + ",";
        const string& text = o.schema.rows[fields[i].id].name;
        print_text(out, text.data(), text.size());
        out += "," + std::to_string(t.count) + "," + digits_of(t.sum) + ",";
        out += (t.count ? digits_of(t.least) + "," + digits_of(t.greatest) : "null,null") + "]\n";
    }
    fwrite(out.data(), 1, out.size(), stdout);
    return 0;
}
