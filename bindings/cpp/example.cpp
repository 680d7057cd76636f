// Compares what an implementation printed of a turns script with the right text, and prints the first line that differs.
//
//   g++ -std=c++17 example.cpp $(pkg-config --cflags --libs gakyhera) -o example && ./example SCRIPT.json TEXT
#include "gakyhera.hpp"

#include <algorithm>
#include <fstream>
#include <iostream>
#include <iterator>

static std::string read_file(const char *path) {
    std::ifstream file(path, std::ios::binary);
    if (!file) throw std::runtime_error(std::string("cannot read ") + path);
    return {std::istreambuf_iterator<char>(file), {}};
}

int main(int count, char **words) try {
    if (count != 3) return 2;
    const std::string right = gakyhera::turns(read_file(words[1])), mine = read_file(words[2]);
    if (mine == right) {
        std::cout << "the same\n";
        return 0;
    }
    auto differs = std::mismatch(right.begin(), right.end(), mine.begin(), mine.end()).first;
    auto number = 1 + std::count(right.begin(), differs, '\n');
    auto line = std::find(std::make_reverse_iterator(differs), right.rend(), '\n').base();
    std::cout << "line " << number << " must be: " << std::string(line, std::find(line, right.end(), '\n')) << "\n";
    return 1;
} catch (const std::exception &why) {
    std::cerr << why.what() << "\n";
    return 2;
}
