// hand CALL PASSES FILE: what hand.c measures, in C++.
#include "gix_validate.hpp"
#include <algorithm>
#include <chrono>
#include <fstream>
#include <iomanip>
#include <iostream>

struct wrong {
  std::string_view why;
  std::size_t offset;
};

static std::optional<wrong> piece_by_hand(std::string_view piece,
                                          std::size_t start) {
  if (piece.empty()) {
    return wrong{"an empty piece", start};
  }
  if (piece.front() == '.') {
    return wrong{"a dot at the start", start};
  }
  if (piece.size() >= 5 && piece.substr(piece.size() - 5) == ".lock") {
    return wrong{".lock at the end", start + piece.size() - 5};
  }
  return {};
}

static bool is_bad(unsigned char byte) {
  return byte <= ' ' || byte == 0x7F ||
         std::string_view(":?[\\^~*").find(static_cast<char>(byte)) !=
             std::string_view::npos;
}

static bool is_apart(char byte) {
  return byte == '_' || (byte >= 'A' && byte <= 'Z');
}

static std::optional<wrong> ref_by_hand(std::string_view name) {
  std::size_t start = 0;
  char before = '/';
  for (std::size_t at = 0; at < name.size(); before = name[at++]) {
    if (name[at] == '/') {
      if (auto found = piece_by_hand(name.substr(start, at - start), start)) {
        return found;
      }
      start = at + 1;
    } else if (is_bad(static_cast<unsigned char>(name[at]))) {
      return wrong{"an invalid byte", at};
    } else if (name[at] == '.' && before == '.') {
      return wrong{"two dots in a row", at};
    } else if (name[at] == '{' && before == '@') {
      return wrong{"@{", at};
    }
  }
  if (auto found = piece_by_hand(name.substr(start), start)) {
    return found;
  }
  if (before == '.') {
    return wrong{"a dot at the end", name.size() - 1};
  }
  if (start == 0 && !std::all_of(name.begin(), name.end(), is_apart)) {
    return wrong{"no slash", 0};
  }
  return {};
}

// The nanoseconds of a call in the best pass. The names are all valid, or none
// of them.
template <class Call>
static double best(const std::vector<std::string> &names, int passes,
                   Call call) {
  double least = 1e18;
  for (int pass = 0; pass < passes; pass++) {
    auto start = std::chrono::steady_clock::now();
    auto valid =
        std::count_if(names.begin(), names.end(), [&](std::string_view it) {
          return !call(it).has_value();
        });
    std::chrono::duration<double, std::nano> taken =
        std::chrono::steady_clock::now() - start;
    least = std::min(least, taken.count() / static_cast<double>(names.size()));
    if (names.empty() || (valid != 0 && valid != std::ssize(names))) {
      std::exit(1);
    }
  }
  return least;
}

int main(int count, char **arguments) {
  if (count != 4) {
    return 2;
  }
  std::ifstream file(arguments[3]);
  std::vector<std::string> names;
  for (std::string line; std::getline(file, line);) {
    names.push_back(line);
  }
  int passes = std::stoi(arguments[2]);
  // (The error always has the offset.)
  double taken = std::string_view(arguments[1]) == "hand"
                     ? best(names, passes, ref_by_hand)
                     : best(names, passes, [](std::string_view it) {
                         return gix_validate::check_ref(it);
                       });
  std::cout << std::fixed << std::setprecision(1) << taken << '\n';
}
