// Files to one: the clusters of each, page by page as they are stored. For merge.cpp.
#pragma once
#include "reading.h"
#include "writing.h"

// Puts the pages of a cluster behind each other, each with its checksum, which is compared first.
static void copy_cluster(int fd, Cursor pages, const vector<Column>& columns, Cluster& cluster, Bytes& image) {
    image.assign(BLOB_KEY, 0);
    for (const Column& c : columns) {
        size_t count;
        Cursor inner = pages.list(count);
        cluster.pages.emplace_back();
        for (; count > 0; count--) {
            const int32_t n = inner.low<int32_t>();
            const uint32_t size = inner.low<uint32_t>();
            const size_t at = image.size();
            check(n < 0 && c.page_size(size_t(-n)) == size, "a page has another size");
            image.resize(at + size + 8);
            read_into(fd, inner.low<uint64_t>(), &image[at], size + 8);
            check(sum(&image[at], size) == word_at(&image[at + size], 0), "the checksum of a page differs");
            cluster.pages.back().push_back(uint64_t(-n));
        }
    }
}

static int merge_files(const char* out, const vector<char*>& names) {
    vector<Outline> files;
    for (const char* name : names) files.push_back(attach(name));
    Writer w;
    w.schema = files[0].schema;
    const Bytes header = header_of(w.schema);
    for (const Outline& o : files) check(header_of(o.schema) == header, "the schemas differ");
    w.fd = open(out, O_RDWR | O_CREAT | O_TRUNC, 0666);
    check(w.fd >= 0, out);
    begin_file(w, header);
    Bytes image;
    uint64_t total = 0;
    for (const Outline& o : files)
        for (const auto& [entries, pages] : o.clusters) {
            Cluster cluster{0, entries, {}};
            copy_cluster(o.fd, pages, o.columns, cluster, image);
            commit(w, 0, cluster, image);
            total += entries;
        }
    close_file(w, header);
    printf("clusters %zu entries %llu\n", w.clusters.size(), (unsigned long long)total);
    return 0;
}
