// The same lines in BuDDy: each line is built as a cube, from its last bit up, and joined to what the lines after it make.
// Reads a list as crates/bench does (only the forms that its input has), and prints the time for each line.
#include <bdd.h>
#include <chrono>
#include <cstdint>
#include <cstdio>
#include <iostream>
#include <sstream>
#include <string>
#include <vector>

struct Field { uint32_t value, ignored; int first, width; };
struct Line { bool permit; std::vector<Field> fields; };

static uint32_t address(const std::string &word) {
    unsigned a, b, c, d;
    sscanf(word.c_str(), "%u.%u.%u.%u", &a, &b, &c, &d);
    return a << 24 | b << 16 | c << 8 | d;
}

static Field side(std::istringstream &in, int first) {
    std::string word, next;
    in >> word;
    if (word == "any") return {0, 0xffffffff, first, 32};
    in >> next;
    if (word == "host") return {address(next), 0, first, 32};
    return {address(word), address(next), first, 32};
}

static bdd cube(const Line &line) {
    bdd made = bddtrue;
    for (size_t f = line.fields.size(); f-- > 0;) {
        const Field &field = line.fields[f];
        for (int bit = field.width; bit-- > 0;) {
            int shift = field.width - 1 - bit;
            if (field.ignored >> shift & 1) continue;
            made &= field.value >> shift & 1 ? bdd_ithvar(field.first + bit) : bdd_nithvar(field.first + bit);
        }
    }
    return made;
}

int main() {
    std::vector<Line> lines;
    std::string text;
    while (std::getline(std::cin, text)) {
        std::istringstream in(text);
        std::string word, action, protocol, port;
        in >> word >> word >> action >> protocol;
        Line line{action == "permit", {}};
        line.fields.push_back(side(in, 0));
        line.fields.push_back(side(in, 32));
        uint32_t number = protocol == "tcp" ? 6 : 17;
        line.fields.push_back({number, protocol == "ip" ? 0xffu : 0u, 64, 8});
        if (in >> word >> port) line.fields.push_back({(uint32_t)std::stoul(port), 0, 88, 16});
        lines.push_back(line);
    }
    bdd_init(1 << 18, 1 << 15);
    bdd_setvarnum(104);
    const int rounds = 100;
    int nodes = 0;
    auto start = std::chrono::steady_clock::now();
    for (int round = 0; round < rounds; round++) {
        bdd root = bddfalse;
        for (size_t i = lines.size(); i-- > 0;) {
            bdd piece = cube(lines[i]);
            root = lines[i].permit ? bdd_or(piece, root) : bdd_apply(root, piece, bddop_diff);
        }
        nodes = bdd_nodecount(root);
    }
    std::chrono::duration<double, std::nano> taken = std::chrono::steady_clock::now() - start;
    printf("%zu lines, %d nodes\n%.0f ns a line\n", lines.size(), nodes, taken.count() / rounds / lines.size());
    bdd_done();
}
