// A file in the format of cdd, read on standard input, and what stands before the rows of one that is written.
#ifndef CDD_FILE_H
#define CDD_FILE_H
#include <cstddef>
#include <gmpxx.h>
#include <iostream>
#include <set>
#include <sstream>
#include <string>
#include <vector>

struct CddFile {
  bool generators = false;
  std::set<std::size_t> equal;  // the numbers of the rows that are equalities or lines, from 1
  std::size_t columns = 0;
  std::vector<std::vector<mpz_class>> rows;
};

inline std::set<std::size_t> linearity(std::istream& words) {
  std::size_t count = 0;
  std::size_t row = 0;
  std::set<std::size_t> rows;
  words >> count;
  while (count-- > 0 && words >> row)
    rows.insert(row);
  return rows;
}

inline CddFile read_file() {
  CddFile file;
  std::string line;
  while (std::getline(std::cin, line) && line != "begin") {
    std::istringstream words(line);
    std::string word;
    words >> word;
    if (word == "V-representation")
      file.generators = true;
    if (word == "linearity")
      file.equal = linearity(words);
  }
  std::size_t count = 0;
  std::string type;
  std::cin >> count >> file.columns >> type;
  file.rows.assign(count, std::vector<mpz_class>(file.columns));
  for (std::vector<mpz_class>& row : file.rows)
    for (mpz_class& entry : row)
      std::cin >> entry;
  return file;
}

// The lines before the rows: `marks` are the numbers of the equalities or lines.
inline void head(const char* kind, const std::vector<std::size_t>& marks, std::size_t rows, std::size_t columns) {
  std::cout << kind << '\n';
  if (!marks.empty()) {
    std::cout << "linearity " << marks.size();
    for (std::size_t mark : marks)
      std::cout << ' ' << mark;
    std::cout << '\n';
  }
  std::cout << "begin\n" << rows << ' ' << columns << " integer\n";
}
#endif
