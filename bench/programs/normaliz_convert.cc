// Converts a file in the format of cdd by Normaliz, in one thread: reads it on standard input, and writes the
// other system, without redundancy, on standard output.
#include "cdd_file.h"
#include <libnormaliz/libnormaliz.h>
#include <map>

using Rows = std::vector<std::vector<mpz_class>>;
using libnormaliz::ConeProperty::Enum;
using libnormaliz::Type::InputType;

static void write(const Rows& rows) {
  for (const std::vector<mpz_class>& row : rows) {
    for (const mpz_class& entry : row)
      std::cout << ' ' << entry;
    std::cout << '\n';
  }
}

static void write_file(const char* kind, const Rows& equal, const Rows& rows, std::size_t columns) {
  std::vector<std::size_t> marks;
  for (std::size_t i = 1; i <= equal.size(); ++i)
    marks.push_back(i);
  head(kind, marks, equal.size() + rows.size(), columns);
  write(equal);
  write(rows);
  std::cout << "end\n";
}

int main() {
  std::ios::sync_with_stdio(false);
  libnormaliz::set_thread_limit(1);
  const CddFile file = read_file();
  Rows equal;
  Rows rows;
  if (!file.generators) {
    rows.emplace_back(file.columns);
    rows[0][0] = 1;
  }
  for (std::size_t i = 1; i <= file.rows.size(); ++i)
    (file.equal.count(i) ? equal : rows).push_back(file.rows[i - 1]);
  std::map<InputType, Rows> input;
  input[file.generators ? InputType::cone : InputType::inequalities] = rows;
  if (!equal.empty())
    input[file.generators ? InputType::subspace : InputType::equations] = equal;
  libnormaliz::Cone<mpz_class> cone(input);
  if (file.generators) {
    cone.compute(Enum::SupportHyperplanes);
    write_file("H-representation", cone.getEquations(), cone.getSupportHyperplanes(), file.columns);
  } else {
    cone.compute(Enum::ExtremeRays);
    write_file("V-representation", cone.getMaximalSubspace(), cone.getExtremeRays(), file.columns);
  }
}
