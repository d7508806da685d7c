// Converts a file in the format of cdd by the Parma Polyhedra Library: reads it on standard input, and writes
// the other system, without redundancy, on standard output.
#include "cdd_file.h"
#include <ppl.hh>

namespace ppl = Parma_Polyhedra_Library;

static ppl::Linear_Expression expression(const std::vector<mpz_class>& row) {
  ppl::Linear_Expression e;
  for (std::size_t j = row.size() - 1; j > 0; --j)
    e += row[j] * ppl::Variable(j - 1);
  return e;
}

template <typename Row>
static void write(const Row& row, std::size_t dim, const mpz_class& first) {
  std::cout << ' ' << first;
  for (std::size_t j = 0; j < dim; ++j)
    std::cout << ' ' << row.coefficient(ppl::Variable(j));
  std::cout << '\n';
}

int main() {
  std::ios::sync_with_stdio(false);
  const CddFile file = read_file();
  const std::size_t dim = file.columns - 1;
  ppl::Constraint_System cs;
  ppl::Generator_System gs;
  cs.set_space_dimension(dim);
  gs.set_space_dimension(dim);
  for (std::size_t i = 1; i <= file.rows.size(); ++i) {
    const std::vector<mpz_class>& row = file.rows[i - 1];
    const bool is_equal = file.equal.count(i) != 0;
    const ppl::Linear_Expression e = expression(row);
    if (!file.generators)
      cs.insert(is_equal ? e + row[0] == 0 : e + row[0] >= 0);
    else if (row[0] != 0)
      gs.insert(ppl::point(e, row[0]));
    else
      gs.insert(is_equal ? ppl::line(e) : ppl::ray(e));
  }
  if (file.generators) {
    const ppl::C_Polyhedron set(gs);
    std::size_t count = 0;
    std::vector<std::size_t> marks;
    for (const ppl::Constraint& c : set.minimized_constraints()) {
      ++count;
      if (c.is_equality())
        marks.push_back(count);
    }
    head("H-representation", marks, count, file.columns);
    for (const ppl::Constraint& c : set.minimized_constraints())
      write(c, dim, c.inhomogeneous_term());
  } else {
    const ppl::C_Polyhedron set(cs);
    std::size_t count = 0;
    std::vector<std::size_t> marks;
    for (const ppl::Generator& g : set.minimized_generators()) {
      ++count;
      if (g.is_line())
        marks.push_back(count);
    }
    head("V-representation", marks, count, file.columns);
    for (const ppl::Generator& g : set.minimized_generators())
      write(g, dim, g.is_point() ? mpz_class(g.divisor()) : mpz_class(0));
  }
  std::cout << "end\n";
}
