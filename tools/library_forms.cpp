/* Calls the library from C++ with vectors, some of which are empty, so that their pointers may be null.

       library_forms_cpp DRAWING

   It says what isn't as docs/LIBRARY.md says, and then ends with 1. */

#include "dgnedit.h"

#include <cstdio>
#include <fstream>
#include <iterator>
#include <string>
#include <utility>
#include <vector>

namespace {

using Buffer = std::vector<std::uint8_t>;

struct Ran {
    dgnedit_ended ended;
    Buffer text, file;
};

dgnedit_bytes bytes_of(const std::string &text)
{
    return {reinterpret_cast<const std::uint8_t *>(text.data()), text.size()};
}

dgnedit_bytes bytes_of(const Buffer &buffer)
{
    return {buffer.empty() ? nullptr : buffer.data(), buffer.size()};
}

/* A run with room for so much. */
Ran run(const std::vector<std::string> &words, const std::vector<std::pair<std::string, Buffer>> &files, std::size_t room)
{
    std::vector<dgnedit_bytes> list;
    std::vector<dgnedit_file> given;
    for (const auto &word : words) list.push_back(bytes_of(word));
    for (const auto &file : files) given.push_back({bytes_of(file.first), bytes_of(file.second)});
    Ran ran{{}, Buffer(room), Buffer(room)};
    ran.ended = dgnedit_run(list.empty() ? nullptr : list.data(), list.size(), given.empty() ? nullptr : given.data(),
                            given.size(), room == 0 ? nullptr : ran.text.data(), room,
                            room == 0 ? nullptr : ran.file.data(), room);
    return ran;
}

bool wants(const char *what, bool is_so)
{
    if (!is_so) std::fprintf(stderr, "%s\n", what);
    return is_so;
}

}

int main(int count, char **arguments)
{
    if (count != 2) return 2;
    std::ifstream stream(arguments[1], std::ios::binary);
    const Buffer drawing((std::istreambuf_iterator<char>(stream)), std::istreambuf_iterator<char>());
    const std::vector<std::string> edit = {"edit", "IN", "SCRIPT", "OUT"};
    bool is_right = wants("no words, no files, no room", run({}, {}, 0).ended.status == DGNEDIT_USAGE);
    const Ran empty = run(edit, {{"IN", drawing}, {"SCRIPT", {}}}, drawing.size());
    is_right &= wants("an empty script", empty.ended.status == DGNEDIT_DONE && empty.file == drawing);
    const Ran none = run(edit, {{"IN", {}}, {"SCRIPT", {}}}, 100);
    is_right &= wants("an empty drawing", none.ended.status == DGNEDIT_BAD_DESIGN && none.ended.text_length > 0);
    const Ran small = run({"check", "IN"}, {{"IN", drawing}}, 0);
    is_right &= wants("no room for a text", small.ended.status == DGNEDIT_DONE && small.ended.text_length > 0);
    is_right &= wants("an empty word", run({"check", ""}, {{"IN", drawing}}, 9).ended.status == DGNEDIT_FILE_MISSING);
    is_right &= wants("an empty name", run({"check", ""}, {{"", drawing}}, 99).ended.status == DGNEDIT_DONE);
    return is_right ? 0 : 1;
}
