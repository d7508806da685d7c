// Whether one union covers another, by the Parma Polyhedra Library: prints the answer, how many members the two have,
// and the time of one call. A word: the number of calls. The input is that of bench_covers.
#include <chrono>
#include <cstdlib>
#include <gmpxx.h>
#include <iostream>
#include <ppl.hh>
#include <sstream>
#include <string>
#include <vector>

namespace ppl = Parma_Polyhedra_Library;

typedef ppl::Pointset_Powerset<ppl::NNC_Polyhedron> Union;

static ppl::Constraint constraint(const std::string& line, std::size_t dim) {
  std::istringstream words(line);
  std::string mark;
  words >> mark;
  ppl::Linear_Expression e;
  mpz_class entry;
  for (std::size_t j = 0; j < dim; ++j) {
    words >> entry;
    e += entry * ppl::Variable(j);
  }
  words >> entry;
  if (mark == "=")
    return e + entry == 0;
  return mark == ">" ? e + entry > 0 : e + entry >= 0;
}

int main(int argc, char** argv) {
  const int times = argc > 1 ? std::atoi(argv[1]) : 1;
  std::size_t dim = 0;
  std::string line;
  std::getline(std::cin, line);
  std::istringstream(line) >> dim;
  std::vector<ppl::Constraint_System> lists[2];
  int side = 0;
  while (std::getline(std::cin, line)) {
    if (line == "s" || line == "t") {
      side = line == "t";
      lists[side].push_back(ppl::Constraint_System());
      lists[side].back().set_space_dimension(dim);
    } else {
      lists[side].back().insert(constraint(line, dim));
    }
  }
  Union unions[2] = {Union(dim, ppl::EMPTY), Union(dim, ppl::EMPTY)};
  for (side = 0; side < 2; ++side) {
    for (const ppl::Constraint_System& cs : lists[side]) {
      const ppl::NNC_Polyhedron member(cs);
      member.minimized_constraints();
      member.minimized_generators();
      unions[side].add_disjunct(member);
    }
    unions[side].omega_reduce();
  }
  bool covers = false;
  const std::chrono::steady_clock::time_point start = std::chrono::steady_clock::now();
  for (int i = 0; i < times; ++i)
    covers = unions[0].geometrically_covers(unions[1]);
  const std::chrono::nanoseconds spent = std::chrono::steady_clock::now() - start;
  std::cout << (covers ? "yes" : "no") << ' ' << unions[0].size() << ' ' << unions[1].size() << " time " << spent.count() / times << " ns\n";
}
