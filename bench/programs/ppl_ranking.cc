// All affine ranking functions of a relation by the Parma Polyhedra Library (method of Mesnard and Serebrenik): reads
// the relation's constraints in the format of cdd on standard input, the state's variables before the successor's, and
// behind them the lines of rows that the other program printed. Prints the time of one making of the relation and of
// one making of the functions, and whether the rows are the same set. A word: the number of makings.
#include <chrono>
#include <cstdlib>
#include <gmpxx.h>
#include <iostream>
#include <ppl.hh>
#include <set>
#include <sstream>
#include <string>
#include <vector>

namespace ppl = Parma_Polyhedra_Library;
using Clock = std::chrono::steady_clock;

static long long since(Clock::time_point start) {
  return std::chrono::duration_cast<std::chrono::nanoseconds>(Clock::now() - start).count();
}

// The library has the successor's variables first.
static ppl::Constraint_System relation(std::istream& in, std::size_t& size) {
  std::set<std::size_t> equal;
  std::string line;
  while (std::getline(in, line) && line != "begin") {
    std::istringstream words(line);
    std::string word;
    std::size_t count = 0;
    if (words >> word && word == "linearity" && words >> count)
      for (std::size_t row = 0; count-- > 0 && words >> row;)
        equal.insert(row);
  }
  std::size_t rows = 0;
  std::size_t columns = 0;
  std::string type;
  in >> rows >> columns >> type;
  size = (columns - 1) / 2;
  ppl::Constraint_System cs;
  cs.set_space_dimension(2 * size);
  for (std::size_t i = 1; i <= rows; ++i) {
    mpz_class entry;
    in >> entry;
    ppl::Linear_Expression e(entry);
    for (std::size_t j = 0; j < 2 * size; ++j) {
      in >> entry;
      e += entry * ppl::Variable(j < size ? j + size : j - size);
    }
    cs.insert(equal.count(i) != 0 ? e == 0 : e >= 0);
  }
  in >> type;
  return cs;
}

static ppl::C_Polyhedron printed(std::istream& in, std::size_t size) {
  ppl::C_Polyhedron set(size + 1);
  std::string line;
  while (std::getline(in, line)) {
    for (char& c : line)
      if (c == '[' || c == ']' || c == ',')
        c = ' ';
    std::istringstream words(line);
    std::string mark;
    if (!(words >> mark) || (mark != "=" && mark != ">="))
      continue;
    ppl::Linear_Expression e;
    mpz_class entry;
    for (std::size_t j = 0; j <= size && words >> entry; ++j)
      e += entry * ppl::Variable(j);
    words >> entry;
    e += entry;
    set.add_constraint(mark == "=" ? e == 0 : e >= 0);
  }
  return set;
}

int main(int count, char** words) {
  const int times = count > 1 ? std::atoi(words[1]) : 1;
  std::size_t size = 0;
  const ppl::Constraint_System cs = relation(std::cin, size);
  long long made = 0;
  long long spent = 0;
  ppl::C_Polyhedron functions;
  for (int i = 0; i < times; ++i) {
    Clock::time_point start = Clock::now();
    ppl::C_Polyhedron set(cs);
    set.minimized_constraints();
    made += since(start);
    start = Clock::now();
    ppl::all_affine_ranking_functions_MS(set, functions);
    functions.minimized_constraints();
    functions.minimized_generators();
    spent += since(start);
  }
  const bool same = printed(std::cin, size) == functions;
  std::cout << "relation " << made / times << " ns functions " << spent / times << " ns " << (same ? "same" : "other") << '\n';
}
