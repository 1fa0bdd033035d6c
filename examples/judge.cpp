// judge.cpp: judges the set on standard input, and prints its type and its lines, or why it is refused. C++11 and later.
//   judge <FILE   status 0: accepted. 1: refused. 2: standard input cannot be read, or standard output not written; standard error says why.
// Bytes after the set are another set, and are not judged.
#include <cerrno>
#include <cstdio>
#include <cstring>
#include <vector>
#include "gdt.h"

// Standard input up to its end; false if it cannot be read.
static bool read_input(std::vector<uint8_t> &bytes)
{
    uint8_t part[4096];
    size_t got;
    while ((got = std::fread(part, 1, sizeof part, stdin)) > 0) {
        bytes.insert(bytes.end(), part, part + got);
    }
    return std::ferror(stdin) == 0;
}

static void print_lines(const uint8_t *set, const gdt_judged &judged)
{
    std::vector<gdt_entry> entries(judged.lines);
    gdt_index(set, judged.length, entries.data(), entries.size());
    for (const gdt_entry &entry : entries) {
        std::printf("%04zu %.*s\n", entry.label, static_cast<int>(entry.length), reinterpret_cast<const char *>(set) + entry.place);
    }
}

static int trouble(const char *what)
{
    std::fprintf(stderr, "judge: %s: %s\n", what, std::strerror(errno));
    return 2;
}

int main()
{
    std::vector<uint8_t> bytes;
    if (!read_input(bytes)) {
        return trouble("standard input cannot be read");
    }
    const size_t length = bytes.size();
    bytes.push_back(0); // so that data() is not null if there is no input
    const gdt_judged judged = gdt_judge(bytes.data(), length);
    if (judged.no != 0) {
        std::printf("refused by %zu at place %zu, label %zu\n", judged.no, judged.place, judged.label);
    } else {
        std::printf("type %zu, %zu bytes, %zu lines\n", judged.type, judged.length, judged.lines);
        print_lines(bytes.data(), judged);
    }
    if (std::ferror(stdout) || std::fclose(stdout) != 0) {
        return trouble("standard output cannot be written");
    }
    return judged.no != 0;
}
