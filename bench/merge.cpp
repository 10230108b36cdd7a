// What plain C++ takes for the work of `merge`: it reads the pages of files of the program, compares the checksum of each, and writes them
// as they are stored as a new file. For comparison only; see merge.sh.
//   merge OUT FILE...
// Files are taken to be of the program, and whatever is wrong ends it. For little-endian machines.
#include <algorithm>

#include "merging.h"

int main(int count, char** words) {
    check(count > 2, "words are missing");
    return merge_files(words[1], vector<char*>(words + 2, words + count));
}
