// Compares nt_event's read_line and write_line with a plain parser and printer in C++ that are led by the same shapes and make
// trees of their own: every line first, then the rates. See event.sh.
#include <charconv>
#include <cstdint>
#include <cstdio>
#include <cstring>
#include <memory>
#include <string>
#include <variant>
#include <vector>

#include "timing.h"

extern "C" {
size_t nt_event_read(const char *schema, size_t schema_len, const char *text, size_t len, uint32_t times);
size_t nt_event_write(const char *schema, size_t schema_len, const char *text, size_t len, uint32_t times, char *out, size_t size);
}

namespace {

constexpr int rounds = 15;
constexpr uint32_t times = 10;

// ---- the plain parser and printer

struct Shape {
    enum { number, text, list } kind;
    uint64_t most = 0;
    std::shared_ptr<Shape> of;
};

struct Tree {
    std::variant<uint64_t, std::string, std::vector<Tree>> value;
};

bool read(const Shape &shape, const char *&at, const char *end, Tree &tree);

bool read_number(uint64_t most, const char *&at, const char *end, Tree &tree) {
    const char *first = at;
    uint64_t n = 0;
    while (at < end && at - first < 20 && '0' <= *at && *at <= '9') {
        uint64_t digit = *at++ - '0';
        if (n > (most - digit) / 10)
            return false;
        n = n * 10 + digit;
    }
    tree.value = n;
    return at > first && n <= most && (*first != '0' || at - first == 1);
}

bool read_text(const char *&at, const char *end, Tree &tree) {
    if (at == end || *at != '"')
        return false;
    const char *first = ++at;
    while (at < end && *at != '"' && *at != '\\' && static_cast<unsigned char>(*at) >= 32)
        at++;
    if (at == end || *at != '"')
        return false;
    tree.value.emplace<std::string>(first, at++);
    return true;
}

bool pass(char mark, const char *&at, const char *end) {
    if (at == end || *at != mark)
        return false;
    at++;
    return true;
}

bool read_list(const Shape &of, const char *&at, const char *end, Tree &tree) {
    auto &list = tree.value.emplace<std::vector<Tree>>();
    if (!pass('[', at, end))
        return false;
    if (pass(']', at, end))
        return true;
    do {
        Tree item;
        if (!read(of, at, end, item))
            return false;
        list.push_back(std::move(item));
    } while (pass(',', at, end));
    return pass(']', at, end);
}

bool read(const Shape &shape, const char *&at, const char *end, Tree &tree) {
    switch (shape.kind) {
    case Shape::number:
        return read_number(shape.most, at, end, tree);
    case Shape::text:
        return read_text(at, end, tree);
    default:
        return read_list(*shape.of, at, end, tree);
    }
}

bool read_line(const std::vector<Shape> &fields, const char *at, const char *end, std::vector<Tree> &entry) {
    if (!pass('[', at, end))
        return false;
    entry.reserve(fields.size());
    for (const Shape &shape : fields) {
        Tree tree;
        if ((!entry.empty() && !pass(',', at, end)) || !read(shape, at, end, tree))
            return false;
        entry.push_back(std::move(tree));
    }
    return pass(']', at, end) && at == end;
}

void write(const std::vector<Tree> &list, std::string &out);

void write(const Tree &tree, std::string &out) {
    if (auto n = std::get_if<uint64_t>(&tree.value)) {
        char digits[20];
        out.append(digits, std::to_chars(digits, digits + 20, *n).ptr);
    } else if (auto text = std::get_if<std::string>(&tree.value)) {
        out += '"';
        for (char c : *text) {
            if (c == '"' || c == '\\')
                out += '\\';
            out += c;
        }
        out += '"';
    } else {
        write(std::get<std::vector<Tree>>(tree.value), out);
    }
}

void write(const std::vector<Tree> &list, std::string &out) {
    out += '[';
    bool later = false;
    for (const Tree &tree : list) {
        if (later)
            out += ',';
        write(tree, out);
        later = true;
    }
    out += ']';
}

size_t read_all(const std::vector<Shape> &fields, const std::string &text) {
    size_t found = 0;
    const char *at = text.data(), *end = at + text.size();
    while (auto lf = static_cast<const char *>(memchr(at, '\n', end - at))) {
        std::vector<Tree> entry;
        found += read_line(fields, at, lf, entry);
        at = lf + 1;
    }
    return found;
}

std::vector<std::vector<Tree>> entries(const std::vector<Shape> &fields, const std::string &text) {
    std::vector<std::vector<Tree>> list;
    const char *at = text.data(), *end = at + text.size();
    while (auto lf = static_cast<const char *>(memchr(at, '\n', end - at))) {
        std::vector<Tree> entry;
        if (read_line(fields, at, lf, entry))
            list.push_back(std::move(entry));
        at = lf + 1;
    }
    return list;
}

void write_all(const std::vector<std::vector<Tree>> &list, std::string &out) {
    out.clear();
    for (const auto &entry : list) {
        write(entry, out);
        out += '\n';
    }
}

// ---- the lines

struct Draws {
    uint64_t s = 1;
    uint64_t next() { return s = s * 48271 % 2147483647; }
    uint64_t below(uint64_t n) { return next() % n; }
};

struct Sample {
    const char *name;
    std::string schema;
    std::vector<Shape> fields;
    size_t count = 0;
    std::string text;
    // the same lines with a blank behind the first bracket, which are read by serde_json
    std::string other;
    void add(const std::string &line) {
        count++;
        text += '[' + line + "]\n";
        other += "[ " + line + "]\n";
    }
};

std::shared_ptr<Shape> number(uint64_t most) { return std::make_shared<Shape>(Shape{Shape::number, most, {}}); }

Sample short_lines() {
    Sample sample{"run, ids and tag", "run u32\nids vec<u32>\ntag string\n", {*number(UINT32_MAX), {Shape::list, 0, number(UINT32_MAX)}, {Shape::text, 0, {}}}, 0, {}, {}};
    Draws draws;
    for (int i = 0; i < 100000; i++) {
        std::string line = std::to_string(draws.below(1000)) + ",[";
        uint64_t n = draws.below(4);
        for (uint64_t j = 0; j < n; j++)
            line += (j ? "," : "") + std::to_string(draws.below(1000000));
        sample.add(line + "],\"t" + std::to_string(draws.below(10)) + '"');
    }
    return sample;
}

Sample wide_lines() {
    Shape word = *number(UINT64_MAX);
    Sample sample{"wide", "a u64\nb u64\nc u64\nd u64\nlist vec<u32>\ntext string\n", {word, word, word, word, {Shape::list, 0, number(UINT32_MAX)}, {Shape::text, 0, {}}}, 0, {}, {}};
    Draws draws;
    for (int i = 0; i < 20000; i++) {
        std::string line;
        for (int j = 0; j < 4; j++)
            line += std::to_string(draws.next() * draws.next()) + ',';
        uint64_t n = 10 + draws.below(21);
        for (uint64_t j = 0; j < n; j++)
            line += (j ? ',' : '[') + std::to_string(draws.next());
        line += "],\"";
        uint64_t len = 15 + draws.below(11);
        for (uint64_t j = 0; j < len; j++)
            line += static_cast<char>('a' + draws.below(26));
        sample.add(line + '"');
    }
    return sample;
}

// ---- the comparison

void fail(const char *what) {
    fprintf(stderr, "event: %s\n", what);
    exit(1);
}

struct Ours {
    const Sample &sample;
    std::string out = std::string(sample.text.size() + 1, ' ');
    size_t read(const std::string &text, uint32_t n) const { return nt_event_read(sample.schema.data(), sample.schema.size(), text.data(), text.size(), n); }
    size_t write(uint32_t n) { return nt_event_write(sample.schema.data(), sample.schema.size(), sample.text.data(), sample.text.size(), n, out.data(), out.size()); }
};

void compare(const Sample &sample) {
    Ours ours{sample};
    if (ours.read(sample.text, 1) != sample.count || ours.read(sample.other, 1) != sample.count)
        fail("a line was not read");
    if (read_all(sample.fields, sample.text) != sample.count)
        fail("the plain parser did not read a line");
    size_t len = ours.write(1);
    if (std::string(ours.out, 0, len) != sample.text)
        fail("a line was printed in another way");
    std::string out;
    write_all(entries(sample.fields, sample.text), out);
    if (out != sample.text)
        fail("the plain printer printed a line in another way");
}

template <class Work> double timed(Work work) {
    double start = now();
    work();
    return now() - start;
}

void measure(const Sample &sample) {
    Ours ours{sample};
    auto list = entries(sample.fields, sample.text);
    std::string out;
    write_all(list, out);
    double read[rounds], other[rounds], plain_read[rounds], written[rounds], plain_written[rounds];
    volatile size_t sink = 0;
    for (int i = 0; i < rounds; i++) {
        read[i] = timed([&] { sink += ours.read(sample.text, times); });
        plain_read[i] = timed([&] {
            for (uint32_t j = 0; j < times; j++)
                sink += read_all(sample.fields, sample.text);
        });
        other[i] = timed([&] { sink += ours.read(sample.other, 1); }) * times;
        written[i] = timed([&] { sink += ours.write(times + 1); }) - timed([&] { sink += ours.write(1); });
        plain_written[i] = timed([&] {
            for (uint32_t j = 0; j < times; j++) {
                write_all(list, out);
                sink += out.size();
            }
        });
    }
    double lines = static_cast<double>(sample.count) * times / 1e9;
    double a = median(read, rounds) / lines, b = median(plain_read, rounds) / lines, c = median(other, rounds) / lines;
    double d = median(written, rounds) / lines, e = median(plain_written, rounds) / lines;
    printf("%s, lines of %zu bytes\n", sample.name, sample.text.size() / sample.count - 1);
    printf("  read_line   %6.0f ns a line, C++ %6.0f: %.2f of its time; by serde_json %6.0f\n", a, b, a / b, c);
    printf("  write_line  %6.0f ns a line, C++ %6.0f: %.2f of its time\n", d, e, d / e);
}

} // namespace

int main() {
    for (const Sample &sample : {short_lines(), wide_lines()}) {
        compare(sample);
        measure(sample);
    }
}
