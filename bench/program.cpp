// What plain C++ takes for the work of the program: it reads lines of events into columns, writes them as the same file, byte for byte,
// and prints the entries or the totals of such a file. For comparison only; see program.sh.
//   program write [--plain] [--staged] [--cluster N] [--page P] [--group G] [--order LINE] OUT SCHEMA IN...
//   program entries FILE
//   program scan [--threads T] FILE
// Each input has a thread, and `scan` four or as many as is said. LINE is an order line of the program, in which the clusters are then written too, each behind the one before it. Texts are taken to be UTF-8,
// files to be of the program, and whatever is wrong ends it. For little-endian machines.
#include <algorithm>
#include <sstream>

#include "reading.h"
#include "scanning.h"
#include "writing.h"

int main(int count, char** words) {
    vector<char*> rest(words + std::min(count, 2), words + count);
    const string command = count > 1 ? words[1] : "";
    if (command == "entries" && rest.size() == 1) return print_entries(rest[0]);
    if (command == "scan" && rest.size() == 1) return print_totals(rest[0], 4);
    if (command == "scan" && rest.size() == 3 && rest[0] == string("--threads")) return print_totals(rest[2], std::stoul(rest[1]));
    check(command == "write", "no such command");
    Writer w;
    bool plain = false;
    while (!rest.empty() && rest[0][0] == '-') {
        const string option = rest[0];
        if (option == "--plain" || option == "--staged") {
            (option == "--plain" ? plain : w.staged) = true;
            rest.erase(rest.begin());
            continue;
        }
        check(rest.size() > 1, "words are missing");
        std::istringstream value(option == "--order" ? rest[1] + strlen("order") : rest[1]);
        if (option == "--order") for (size_t i; value >> i;) w.order.push_back(i);
        else value >> (option == "--cluster" ? w.cluster : option == "--page" ? w.page : w.group);
        rest.erase(rest.begin(), rest.begin() + 2);
    }
    return write_file(w, plain, rest);
}