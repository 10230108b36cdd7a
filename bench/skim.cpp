// What plain C++ takes for the work of `skim`: it reads a file of the program, tests a field of each entry, and writes chosen fields of
// those that pass as a new file, column to column. For comparison only; see skim.sh.
//   skim [--where NAME] [--least A] [--greatest B] OUT FILE NAME...
// Only the columns that are needed are read and decoded. Files are taken to be of the program, numbers to have no sign, and whatever is
// wrong ends it. For little-endian machines.
#include "skimming.h"

int main(int count, char** words) {
    vector<char*> rest(words + 1, words + count);
    Choice choice;
    while (rest.size() > 1 && rest[0][0] == '-') {
        const string option = rest[0];
        if (option == "--where") choice.test = rest[1];
        else (option == "--least" ? choice.least : choice.greatest) = strtoull(rest[1], nullptr, 10);
        rest.erase(rest.begin(), rest.begin() + 2);
    }
    check(rest.size() > 2, "words are missing");
    choice.names.assign(rest.begin() + 2, rest.end());
    return skim_file(rest[0], rest[1], choice);
}
