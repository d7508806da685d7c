// An operation on bounded-difference shapes by the Parma Polyhedra Library: prints the time of one run, whether the
// first shape contains the result, and whether the rows that the other program printed are the result. Words: `close`,
// `meet`, `hull` or `contains`, the number of runs, and `rational` or `integer` for the numbers of the bounds. The input
// is that of bench_shapes, a `%` and what that program printed.
#include <chrono>
#include <cstdlib>
#include <gmpxx.h>
#include <iostream>
#include <ppl.hh>
#include <sstream>
#include <string>

namespace ppl = Parma_Polyhedra_Library;
using Clock = std::chrono::steady_clock;

static ppl::Constraint_System listed(std::istream& in, std::size_t& dim) {
  std::string word;
  while (in >> word && word != "begin") {
  }
  std::size_t rows = 0;
  std::size_t columns = 0;
  in >> rows >> columns >> word;
  dim = columns - 1;
  ppl::Constraint_System cs;
  cs.set_space_dimension(dim);
  for (std::size_t i = 0; i < rows; ++i) {
    mpz_class entry;
    in >> entry;
    ppl::Linear_Expression e(entry);
    for (std::size_t j = 0; j < dim; ++j) {
      in >> entry;
      e += entry * ppl::Variable(j);
    }
    cs.insert(e >= 0);
  }
  while (in >> word && word != "%") {
  }
  return cs;
}

// Closes the shape's bounds too.
template <typename Number>
static ppl::BD_Shape<Number> made(const ppl::Constraint_System& cs, std::size_t dim) {
  ppl::BD_Shape<Number> shape(dim);
  shape.add_constraints(cs);
  shape.is_empty();
  return shape;
}

template <typename Number>
static ppl::BD_Shape<Number> printed(std::istream& in, std::size_t dim) {
  ppl::BD_Shape<Number> shape(dim);
  std::string line;
  while (std::getline(in, line)) {
    for (char& c : line)
      if (c == '[' || c == ']' || c == ',')
        c = ' ';
    std::istringstream words(line);
    std::string mark;
    if (!(words >> mark) || mark != ">=")
      continue;
    ppl::Linear_Expression e;
    mpz_class entry;
    for (std::size_t j = 0; j < dim && words >> entry; ++j)
      e += entry * ppl::Variable(j);
    words >> entry;
    shape.add_constraint(e + entry >= 0);
  }
  return shape;
}

template <typename Number>
static void run(const std::string& op, int times) {
  typedef ppl::BD_Shape<Number> Shape;
  std::size_t dim = 0;
  const ppl::Constraint_System first = listed(std::cin, dim);
  const ppl::Constraint_System second = listed(std::cin, dim);
  const Shape s = made<Number>(first, dim);
  const Shape t = made<Number>(second, dim);
  Shape both(s);
  both.intersection_assign(t);
  both.is_empty();
  Shape joined(s);
  joined.upper_bound_assign(t);
  const Clock::time_point start = Clock::now();
  for (int i = 0; i < times; ++i) {
    if (op == "close") {
      made<Number>(first, dim);
    } else if (op == "meet") {
      Shape result(s);
      result.intersection_assign(t);
      result.is_empty();
    } else if (op == "hull") {
      Shape result(s);
      result.upper_bound_assign(t);
    } else {
      s.contains(both);
    }
  }
  const std::chrono::nanoseconds spent = Clock::now() - start;
  const Shape& result = op == "close" ? s : op == "hull" ? joined : both;
  const bool same = printed<Number>(std::cin, dim) == result;
  std::cout << "time " << spent.count() / (times > 1 ? times : 1) << " ns contains " << (s.contains(result) ? "yes" : "no") << (same ? " same" : " other") << '\n';
}

int main(int count, char** words) {
  if (count < 4)
    return 1;
  if (words[3] == std::string("integer"))
    run<int64_t>(words[1], std::atoi(words[2]));
  else
    run<mpq_class>(words[1], std::atoi(words[2]));
}
