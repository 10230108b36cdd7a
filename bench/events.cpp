// Makes the inputs of program.sh in a folder, each by a rule from its seed: a draw takes the number s to s * 48271 mod 2147483647.
//   events DIR
#include <cstdint>
#include <cstdio>
#include <cstdlib>
#include <string>

using std::string;
using std::to_string;

static uint64_t s;

static uint64_t draw() { return s = s * 48271 % 2147483647; }

static void save(const string& name, const string& text) {
    FILE* file = fopen(name.c_str(), "w");
    if (!file || fwrite(text.data(), 1, text.size(), file) != text.size() || fclose(file)) {
        perror(name.c_str());
        exit(1);
    }
}

// A list of so many numbers.
static string numbers(uint64_t count) {
    string list = "[";
    for (uint64_t i = 0; i < count; i++)
        list += (i ? "," : "") + to_string(draw() % 1000000);
    return list + "]";
}

// A run, up to three ids, and a tag.
static string small_event() {
    string run = to_string(draw() % 1000), ids = numbers(draw() % 4);
    return "[" + run + "," + ids + ",\"t" + to_string(draw() % 10) + "\"]\n";
}

// Four numbers of up to 62 bits, 10 to 30 more, and a text of 15 to 25 letters.
static string wide_event() {
    string event = "[";
    for (int i = 0; i < 4; i++) {
        uint64_t high = draw();
        event += to_string(high << 31 | draw()) + ",";
    }
    event += numbers(10 + draw() % 21) + ",\"";
    for (uint64_t letters = 15 + draw() % 11; letters > 0; letters--)
        event += char('a' + draw() % 26);
    return event + "\"]\n";
}

static string small_int(uint64_t half) { return to_string(int64_t(draw() % (2 * half)) - int64_t(half)); }

static string text() {
    const string parts[] = {"a", "\\\"", "\\n", "\\u0001", "\xc3\xa4", "/", ""};
    string quoted = "\"";
    for (uint64_t i = draw() % 4; i > 0; i--)
        quoted += parts[draw() % 7];
    return quoted + "\"";
}

template <class Part> static string list(Part part) {
    string all = "[";
    uint64_t count = draw() % 4;
    for (uint64_t i = 0; i < count; i++)
        all += (i ? "," : "") + part();
    return all + "]";
}

static string choice() {
    switch (draw() % 4) {
        case 0:
            return "[1," + to_string(draw() % 256) + "]";
        case 1:
            return "[2," + list(text) + "]";
        case 2:
            return string("[3,[") + (draw() % 2 ? "true," : "false,") + small_int(uint64_t(1) << 40) + "]]";
        default:
            return "null";
    }
}

// A value of each shape.
static const char SHAPES[] =
    "flag bool\nletter char\noctet byte\nq i8\nr u8\ns i16\nt u16\nu i32\nv u32\nw i64\nx u64\ntext string\n"
    "lists vec<vec<i16>>\nparts rec{a:bool,b:vec<rec{c:i32,d:string}>}\npair tuple<u16,string>\n"
    "pick var<u8,vec<string>,tuple<bool,i64>>\n";

static string any_event() {
    string event = draw() % 2 ? "[true" : "[false";
    for (int i = 0; i < 2; i++)
        event += "," + to_string(draw() % 256);
    for (int bits = 8; bits <= 32; bits *= 2) {
        event += "," + small_int(uint64_t(1) << (bits - 1));
        event += "," + to_string(draw() % (uint64_t(1) << bits));
    }
    string high = to_string(draw()), low = to_string(100000000 + draw() % 800000000);
    event += ",-" + high.substr(0, 9) + low + "," + high.substr(0, 9) + low + "," + text();
    event += "," + list([] { return list([] { return small_int(32768); }); });
    event += draw() % 2 ? ",[true," : ",[false,";
    event += list([] {
        string number = small_int(1000000);
        return "[" + number + "," + text() + "]";
    });
    string number = to_string(draw() % 65536);
    event += "],[" + number + "," + text() + "]";
    return event + "," + choice() + "]\n";
}

static string events(uint64_t seed, size_t count, string (*event)()) {
    s = seed;
    string text;
    for (size_t i = 0; i < count; i++)
        text += event();
    return text;
}

int main(int count, char** words) {
    if (count != 2)
        return 2;
    const string folder = words[1];
    const uint64_t seed = 1;
    save(folder + "/small.schema", "run u32\nids vec<u32>\ntag string\n");
    save(folder + "/wide.schema", "a u64\nb u64\nc u64\nd u64\nids vec<u32>\nname string\n");
    save(folder + "/shapes.schema", SHAPES);
    save(folder + "/shapes", events(seed, 500, any_event));
    for (int i = 0; i < 8; i++)
        save(folder + "/small-" + to_string(i), events(seed + i, 100000, small_event));
    for (size_t many : {10000, 100000, 1000000})
        save(folder + "/many-" + to_string(many), events(seed, many, small_event));
    save(folder + "/wide", events(seed, 170000, wide_event));
}
