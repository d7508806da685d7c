// The lines of a script by the Parma Polyhedra Library. Without a word: reads them on standard input and answers each by
// a line on standard output, as a program over PPL's C++ calls would, with PPL's own printing of constraints; lines that
// the calculator refuses aren't expected. With the name of a file of the calculator's replies to the script: carries out
// each line that wasn't refused there, compares the answers, reads each printed system back and compares it as a set,
// writes each difference, and last the numbers of lines, of comparisons and of differences. After a refused line each
// set is what it was. PPL's printing and normal forms differ and aren't compared:
//  - PPL's minimised systems of a set that isn't closed have other rows, and sometimes more, so `size` of such a set is
//    compared by its dimension, and its systems as sets;
//  - which of several points is a witness isn't determined: it is compared by its value and by where it lies;
//  - which of several ranking functions is printed isn't determined: it is looked up among all of PPL's;
//  - PPL doesn't order the members of a powerset: they are compared as a list without an order, and `member` takes them
//    in the order that the language has.
#include <algorithm>
#include <cctype>
#include <fstream>
#include <gmpxx.h>
#include <iostream>
#include <map>
#include <memory>
#include <ppl.hh>
#include <sstream>
#include <stdexcept>
#include <string>
#include <vector>

namespace ppl = Parma_Polyhedra_Library;
using ppl::Constraint_System;
using ppl::Generator_System;
using ppl::Linear_Expression;
using ppl::Variable;
typedef ppl::BD_Shape<mpq_class> Shape;
typedef ppl::dimension_type Dimension;

// One polyhedron of either topology.
struct Set {
  std::unique_ptr<ppl::C_Polyhedron> closed;
  std::unique_ptr<ppl::NNC_Polyhedron> nnc;
  Set() {}
  Set(const Set& other)
    : closed(other.closed ? new ppl::C_Polyhedron(*other.closed) : nullptr),
      nnc(other.nnc ? new ppl::NNC_Polyhedron(*other.nnc) : nullptr) {}
  Set(Set&&) = default;
  Set& operator=(Set&&) = default;
  Set& operator=(const Set& other) { return *this = Set(other); }
  explicit Set(const ppl::C_Polyhedron& set) : closed(new ppl::C_Polyhedron(set)) {}
  Set(bool is_closed, Dimension dim, ppl::Degenerate_Element kind) {
    if (is_closed)
      closed.reset(new ppl::C_Polyhedron(dim, kind));
    else
      nnc.reset(new ppl::NNC_Polyhedron(dim, kind));
  }
  ppl::Polyhedron& get() const { return closed ? static_cast<ppl::Polyhedron&>(*closed) : *nnc; }
  Dimension dim() const { return get().space_dimension(); }
};

static Set of_constraints(bool is_closed, Dimension dim, Constraint_System& all) {
  all.set_space_dimension(dim);
  Set s;
  if (is_closed)
    s.closed.reset(new ppl::C_Polyhedron(all));
  else
    s.nnc.reset(new ppl::NNC_Polyhedron(all));
  return s;
}

static Set of_generators(bool is_closed, Dimension dim, const Generator_System& all) {
  Set s(is_closed, dim, ppl::EMPTY);
  if (all.begin() != all.end())
    s.get().add_generators(all);
  return s;
}

struct Fraction {
  Linear_Expression sum;
  mpz_class divisor = 1;
};

// A text of the language, read from the left.
struct Reader {
  const char* at;
  explicit Reader(const char* text) : at(text) {}
  void blanks() { while (*at == ' ' || *at == '\t') ++at; }
  bool take(char c) {
    blanks();
    if (*at != c)
      return false;
    ++at;
    return true;
  }
  std::string word() {
    blanks();
    const char* from = at;
    while (std::islower(*at) || std::isdigit(*at) || *at == '_')
      ++at;
    return std::string(from, at);
  }
  Dimension count() { return std::stoul(word()); }
  mpz_class number() {
    blanks();
    const char* from = at;
    while (std::isdigit(*at))
      ++at;
    return mpz_class(std::string(from, at), 10);
  }
  Variable variable() {
    blanks();
    Dimension letter = *at++ - 'A';
    return Variable(letter + (std::isdigit(*at) ? 26 * number().get_ui() : 0));
  }
  void term(Linear_Expression& sum, bool minus) {
    blanks();
    mpz_class factor = 1;
    if (std::isdigit(*at)) {
      factor = number();
      if (!take('*')) {
        if (minus)
          factor = -factor;
        sum += Linear_Expression(factor);
        return;
      }
    }
    if (minus)
      factor = -factor;
    sum += factor * variable();
  }
  Linear_Expression sum() {
    Linear_Expression all;
    term(all, take('-'));
    while (true) {
      if (take('+'))
        term(all, false);
      else if (take('-'))
        term(all, true);
      else
        return all;
    }
  }
  Fraction fraction() {
    Fraction all;
    if (take('(')) {
      all.sum = sum();
      take(')');
      if (take('/'))
        all.divisor = number();
    } else {
      all.sum = sum();
    }
    return all;
  }
  ppl::Constraint constraint() {
    blanks();
    if (std::islower(*at))
      return word() == "true" ? ppl::Constraint::zero_dim_positivity() : ppl::Constraint::zero_dim_false();
    Linear_Expression left = sum();
    blanks();
    char relation = *at++;
    bool equal = *at == '=';
    if (equal)
      ++at;
    Linear_Expression right = sum();
    if (relation == '=')
      return left == right;
    if (relation == '>')
      return equal ? left >= right : left > right;
    return equal ? left <= right : left < right;
  }
  std::vector<ppl::Constraint> list_of_constraints() {
    std::vector<ppl::Constraint> all;
    do
      all.push_back(constraint());
    while (take(','));
    return all;
  }
  Constraint_System constraints() {
    Constraint_System all;
    for (const ppl::Constraint& row : list_of_constraints())
      all.insert(row);
    return all;
  }
  ppl::Generator generator() {
    std::string kind = word();
    take('(');
    Fraction all = fraction();
    take(')');
    if (kind == "p")
      return ppl::Generator::point(all.sum, all.divisor);
    if (kind == "c")
      return ppl::Generator::closure_point(all.sum, all.divisor);
    return kind == "r" ? ppl::Generator::ray(all.sum) : ppl::Generator::line(all.sum);
  }
  Generator_System generators() {
    Generator_System all;
    blanks();
    if (std::string(at).compare(0, 4, "none") == 0)
      return all;
    do
      all.insert(generator());
    while (take(','));
    return all;
  }
};

struct Transition {
  std::size_t source, target;
  ppl::C_Polyhedron relation;
};

struct System {
  Dimension dim = 0;
  bool has_time = false;
  std::vector<ppl::C_Polyhedron> initial, invariants, flows;
  std::vector<Transition> transitions;
};

// The members of a powerset, in the language's order.
struct Powerset {
  bool is_closed;
  Dimension dim;
  std::vector<Set> members;
};

// What a name stands for: one of these.
struct Thing {
  std::shared_ptr<Set> set;
  std::shared_ptr<System> system;
  std::shared_ptr<Powerset> powerset;
  std::shared_ptr<Shape> shape;
};

static std::map<std::string, Thing> names;
static std::vector<std::string> order;

static Thing& place(const std::string& name) {
  Thing& found = names[name];
  if (std::find(order.begin(), order.end(), name) == order.end())
    order.push_back(name);
  found = Thing();
  return found;
}

static void keep(const std::string& name, Set s) { place(name).set = std::make_shared<Set>(std::move(s)); }

template <typename Part>
static Part& found(const std::string& name, std::shared_ptr<Part> Thing::*part) {
  std::map<std::string, Thing>::iterator at = names.find(name);
  if (at == names.end() || !(at->second.*part))
    throw std::runtime_error("no such name: " + name);
  return *(at->second.*part);
}

static Set& set_of(const std::string& name) { return found(name, &Thing::set); }
static System& system_of(const std::string& name) { return found(name, &Thing::system); }
static Powerset& powerset_of(const std::string& name) { return found(name, &Thing::powerset); }
static Shape& shape_of(const std::string& name) { return found(name, &Thing::shape); }

static const ppl::C_Polyhedron& closed_of(const std::string& name) {
  Set& s = set_of(name);
  if (!s.closed)
    throw std::runtime_error("not closed: " + name);
  return *s.closed;
}

// Systems and automata.

// What the states of a set lead to by a relation between a state and its successor.
static ppl::C_Polyhedron post(const ppl::C_Polyhedron& set, const Transition& transition, Dimension dim) {
  ppl::C_Polyhedron pairs(set);
  pairs.add_space_dimensions_and_embed(dim);
  pairs.intersection_assign(transition.relation);
  ppl::Variables_Set before;
  for (Dimension i = 0; i < dim; ++i)
    before.insert(i);
  pairs.remove_space_dimensions(before);
  return pairs;
}

// Joins a set to that of a location, or widens by both once the updates of the delay are used up.
static bool update(ppl::C_Polyhedron& old, ppl::C_Polyhedron next, unsigned long& left) {
  if (old.contains(next))
    return false;
  next.poly_hull_assign(old);
  if (left > 0)
    --left;
  else
    next.H79_widening_assign(old);
  old = next;
  return true;
}

static ppl::C_Polyhedron within(const System& s, const ppl::C_Polyhedron& set, std::size_t location) {
  ppl::C_Polyhedron part(set);
  if (s.has_time)
    part.intersection_assign(s.invariants[location]);
  return part;
}

// The sets that rounds of time and of all transitions leave as they are.
static std::vector<ppl::C_Polyhedron> limit(const System& s, unsigned long delay) {
  std::vector<ppl::C_Polyhedron> sets = s.initial;
  std::vector<unsigned long> left(sets.size(), delay);
  for (bool changed = true; changed;) {
    changed = false;
    for (std::size_t i = 0; s.has_time && i < sets.size(); ++i) {
      if (s.flows[i].is_empty())
        continue;
      ppl::C_Polyhedron reached = within(s, sets[i], i);
      reached.time_elapse_assign(s.flows[i]);
      changed |= update(sets[i], within(s, reached, i), left[i]);
    }
    for (const Transition& t : s.transitions) {
      ppl::C_Polyhedron from = within(s, sets[t.source], t.source);
      if (!from.is_empty())
        changed |= update(sets[t.target], within(s, post(from, t, s.dim), t.target), left[t.target]);
    }
  }
  for (std::size_t i = 0; i < sets.size(); ++i)
    sets[i] = within(s, sets[i], i);
  return sets;
}

static std::string of_system(const std::string& word, const std::string& name, Reader& line) {
  if (word == "system") {
    Dimension dim = line.count();
    std::size_t locations = line.count();
    std::shared_ptr<System> s = std::make_shared<System>();
    s->dim = dim;
    s->initial.assign(locations, ppl::C_Polyhedron(dim, ppl::EMPTY));
    place(name).system = s;
    return "ok";
  }
  if (word == "hybrid") {
    std::shared_ptr<System> s = std::make_shared<System>(system_of(line.word()));
    if (s->has_time)
      throw std::runtime_error("an automaton in place of a system");
    s->has_time = true;
    s->invariants.assign(s->initial.size(), ppl::C_Polyhedron(s->dim));
    s->flows.assign(s->initial.size(), ppl::C_Polyhedron(s->dim, ppl::EMPTY));
    place(name).system = s;
    return "ok";
  }
  System& s = system_of(name);
  if (s.has_time != (word == "inv" || word == "flow" || word == "reach"))
    throw std::runtime_error("a system in place of an automaton, or the other way round");
  if (word == "fixpoint" || word == "reach") {
    unsigned long delay = line.count();
    std::string prefix = line.word();
    std::vector<ppl::C_Polyhedron> sets = limit(s, delay);
    for (std::size_t i = 0; i < sets.size(); ++i)
      keep(prefix + std::to_string(i), Set(sets[i]));
    return "ok";
  }
  std::size_t location = line.count();
  if (word == "trans") {
    std::size_t target = line.count();
    s.initial.at(location), s.initial.at(target);
    s.transitions.push_back({location, target, closed_of(line.word())});
    return "ok";
  }
  std::vector<ppl::C_Polyhedron>& sets = word == "init" ? s.initial : word == "inv" ? s.invariants : s.flows;
  sets.at(location) = closed_of(line.word());
  return "ok";
}

// Powersets.

template <typename Member>
static ppl::Pointset_Powerset<Member> as_ppl(const Powerset& s) {
  ppl::Pointset_Powerset<Member> all(s.dim, ppl::EMPTY);
  for (const Set& member : s.members)
    all.add_disjunct(Member(s.is_closed ? Member(*member.closed) : Member(*member.nnc)));
  return all;
}

// PPL's union or intersection, and whether it has the same members.
template <typename Member>
static bool has_members(const Powerset& result, const Powerset& s, const Powerset& t, bool is_union) {
  ppl::Pointset_Powerset<Member> x = as_ppl<Member>(s);
  if (is_union)
    x.upper_bound_assign(as_ppl<Member>(t));
  else
    x.meet_assign(as_ppl<Member>(t));
  x.omega_reduce();
  std::size_t count = 0;
  for (typename ppl::Pointset_Powerset<Member>::const_iterator i = x.begin(); i != x.end(); ++i, ++count) {
    bool is_there = false;
    for (const Set& member : result.members)
      is_there |= static_cast<const ppl::Polyhedron&>(i->pointset()) == member.get();
    if (!is_there)
      return false;
  }
  return count == result.members.size();
}

// Leaves out members that are empty, or included in another one that comes before them or is larger.
static void reduce(Powerset& s) {
  std::vector<Set> kept;
  for (std::size_t i = 0; i < s.members.size(); ++i) {
    const ppl::Polyhedron& member = s.members[i].get();
    bool stays = !member.is_empty();
    for (std::size_t j = 0; stays && j < s.members.size(); ++j)
      if (j != i && s.members[j].get().contains(member))
        stays = j > i && member.contains(s.members[j].get());
    if (stays)
      kept.push_back(s.members[i]);
  }
  s.members = std::move(kept);
}

static std::string of_powersets(const std::string& word, const std::string& out, Reader& line) {
  if (word == "pset") {
    const Set& p = set_of(line.word());
    Powerset s{bool(p.closed), p.dim(), {}};
    if (!p.get().is_empty())
      s.members.push_back(p);
    place(out).powerset = std::make_shared<Powerset>(std::move(s));
    return "ok";
  }
  const Powerset s = powerset_of(word == "psize" ? out : line.word());
  if (word == "psize")
    return "members " + std::to_string(s.members.size());
  if (word == "member") {
    keep(out, s.members.at(line.count() - 1));
    return "ok";
  }
  const Powerset t = powerset_of(line.word());
  Powerset result{s.is_closed, s.dim, {}};
  if (word == "join") {
    result.members = s.members;
    result.members.insert(result.members.end(), t.members.begin(), t.members.end());
  } else {
    for (const Set& one : s.members)
      for (const Set& two : t.members) {
        result.members.push_back(one);
        result.members.back().get().intersection_assign(two.get());
      }
  }
  reduce(result);
  bool same = s.is_closed ? has_members<ppl::C_Polyhedron>(result, s, t, word == "join") : has_members<ppl::NNC_Polyhedron>(result, s, t, word == "join");
  place(out).powerset = std::make_shared<Powerset>(std::move(result));
  return same ? "ok" : "other members";
}

// Ranking functions.

// A relation's variables, with those after the step first.
struct Swapped {
  Dimension half;
  bool has_empty_codomain() const { return half == 0; }
  Dimension max_in_codomain() const { return 2 * half - 1; }
  bool maps(Dimension i, Dimension& j) const {
    j = i < half ? i + half : i - half;
    return true;
  }
};

static ppl::C_Polyhedron ranking_functions(const ppl::C_Polyhedron& relation) {
  Dimension half = relation.space_dimension() / 2;
  if (half == 0)
    return ppl::C_Polyhedron(1, relation.is_empty() ? ppl::UNIVERSE : ppl::EMPTY);
  ppl::C_Polyhedron pairs(relation), functions;
  pairs.map_space_dimensions(Swapped{half});
  ppl::all_affine_ranking_functions_MS(pairs, functions);
  return functions;
}

// Transformations of one polyhedron, and questions.

static ppl::Relation_Symbol relation_symbol(Reader& line) {
  line.blanks();
  char relation = *line.at++;
  bool equal = relation != '=' && relation != ':' && *line.at == '=';
  if (equal)
    ++line.at;
  if (relation == '>')
    return equal ? ppl::GREATER_OR_EQUAL : ppl::GREATER_THAN;
  if (relation == '<')
    return equal ? ppl::LESS_OR_EQUAL : ppl::LESS_THAN;
  return ppl::EQUAL;
}

static void assign(ppl::Polyhedron& s, bool is_image, Reader& line) {
  Variable target = line.variable();
  ppl::Relation_Symbol relation = relation_symbol(line);
  Fraction value = line.fraction();
  if (relation == ppl::EQUAL && is_image)
    s.affine_image(target, value.sum, value.divisor);
  else if (relation == ppl::EQUAL)
    s.affine_preimage(target, value.sum, value.divisor);
  else if (is_image)
    s.generalized_affine_image(target, relation, value.sum, value.divisor);
  else if (!s.is_empty())  // PPL 1.2 aborts at such a preimage of a set that it knows to be empty
    s.generalized_affine_preimage(target, relation, value.sum, value.divisor);
}

static void change(ppl::Polyhedron& s, const std::string& word, Reader& line) {
  if (word == "image" || word == "preimage") {
    assign(s, word == "image", line);
  } else if (word == "closure") {
    s.topological_closure_assign();
  } else if (word == "embed") {
    s.add_space_dimensions_and_embed(line.count());
  } else if (word == "project") {
    s.add_space_dimensions_and_project(line.count());
  } else if (word == "remove") {
    line.take(':');
    ppl::Variables_Set gone;
    do
      gone.insert(line.variable());
    while (line.take(','));
    s.remove_space_dimensions(gone);
  } else if (word == "meet") {
    s.intersection_assign(set_of(line.word()).get());
  } else if (word == "hull") {
    s.poly_hull_assign(set_of(line.word()).get());
  } else if (word == "concat") {
    s.concatenate_assign(set_of(line.word()).get());
  } else if (word == "elapse") {
    s.time_elapse_assign(set_of(line.word()).get());
  } else if (word != "copy") {
    throw std::runtime_error("no command: " + word);
  }
}

static std::string relation_words(const ppl::Poly_Con_Relation& relation) {
  std::string all;
  if (relation.implies(ppl::Poly_Con_Relation::is_disjoint()))
    all += " disjoint";
  if (relation.implies(ppl::Poly_Con_Relation::strictly_intersects()))
    all += " intersects";
  if (relation.implies(ppl::Poly_Con_Relation::is_included()))
    all += " included";
  if (relation.implies(ppl::Poly_Con_Relation::saturates()))
    all += " saturates";
  return all.substr(1);
}

static std::string bound(const ppl::Polyhedron& s, const Linear_Expression& sum, bool is_max) {
  if (s.is_empty())
    return "empty";
  mpz_class over, under;
  bool is_attained;
  if (!(is_max ? s.maximize(sum, over, under, is_attained) : s.minimize(sum, over, under, is_attained)))
    return "unbounded";
  return over.get_str() + "/" + under.get_str() + (is_attained ? " attained" : " not attained");
}

static bool is_in(const ppl::Polyhedron& s, const ppl::Generator& point) {
  return s.relation_with(point) == ppl::Poly_Gen_Relation::subsumes();
}

template <typename Rows>
static std::size_t rows_of(const Rows& all) {
  return std::distance(all.begin(), all.end());
}

static std::string size(const Set& s) {
  std::ostringstream text;
  text << "dim " << s.dim();
  if (s.closed)
    text << " constraints " << rows_of(s.get().minimized_constraints()) << " generators " << rows_of(s.get().minimized_generators());
  return text.str();
}

static std::string question(const std::string& word, const std::string& name, Reader& line) {
  if (word == "covers")
    return as_ppl<ppl::NNC_Polyhedron>(powerset_of(name)).geometrically_covers(as_ppl<ppl::NNC_Polyhedron>(powerset_of(line.word()))) ? "yes" : "no";
  if (word == "scontains")
    return shape_of(name).contains(shape_of(line.word())) ? "yes" : "no";
  if (word == "ranking")
    return ranking_functions(closed_of(name)).is_empty() ? "none" : "some";
  const Set& s = set_of(name);
  if (word == "contains")
    return s.get().contains(set_of(line.word()).get()) ? "yes" : "no";
  if (word == "equal")
    return s.get() == set_of(line.word()).get() ? "yes" : "no";
  if (word == "disjoint")
    return s.get().is_disjoint_from(set_of(line.word()).get()) ? "yes" : "no";
  if (word == "isempty")
    return s.get().is_empty() ? "yes" : "no";
  if (word == "size")
    return size(s);
  line.take(':');
  if (word == "has")
    return is_in(s.get(), line.generator()) ? "yes" : "no";
  if (word == "relation")
    return relation_words(s.get().relation_with(line.constraint()));
  return bound(s.get(), line.sum(), word == "max");
}

static std::string all_names() {
  std::string text = "names " + std::to_string(order.size());
  for (const std::string& name : order)
    text += " " + name;
  return text;
}

// Carries out a line, and answers it as far as the answer is determined.
static std::string answer(const std::string& text) {
  Reader line(text.c_str());
  const std::string word = line.word();
  if (word == "names")
    return all_names();
  std::string out = line.word();
  for (const char* each : {"system", "init", "trans", "fixpoint", "hybrid", "inv", "flow", "reach"})
    if (word == each)
      return of_system(word, out, line);
  for (const char* each : {"pset", "psize", "member", "join", "pmeet"})
    if (word == each)
      return of_powersets(word, out, line);
  for (const char* each : {"covers", "scontains", "ranking", "contains", "equal", "disjoint", "isempty", "size", "has", "relation", "max", "min"})
    if (word == each)
      return question(word, out, line);
  if (word == "cons" || word == "gens" || word == "universe" || word == "empty") {
    bool is_closed = line.word() == "closed";
    Dimension dim = line.count();
    line.take(':');
    if (word == "universe" || word == "empty") {
      keep(out, Set(is_closed, dim, word == "empty" ? ppl::EMPTY : ppl::UNIVERSE));
    } else if (word == "gens") {
      keep(out, of_generators(is_closed, dim, line.generators()));
    } else {
      Constraint_System all = line.constraints();
      Set s = of_constraints(is_closed, dim, all);
      s.get().is_empty();
      keep(out, std::move(s));
    }
    return "ok";
  }
  if (word == "print") {
    std::ostringstream shown;
    using ppl::IO_Operators::operator<<;
    if (out == "cons")
      shown << set_of(line.word()).get().minimized_constraints();
    else
      shown << set_of(line.word()).get().minimized_generators();
    return shown.str();
  }
  if (word == "drop") {
    names.erase(out);
    order.erase(std::find(order.begin(), order.end(), out));
    return "ok";
  }
  if (word == "add" || word == "addgen") {
    ppl::Polyhedron& s = set_of(out).get();
    line.take(':');
    if (word == "add") {
      s.add_constraints(line.constraints());
    } else {
      Generator_System all = line.generators();
      if (all.begin() != all.end())
        s.add_generators(all);
    }
    return "ok";
  }
  if (word == "bounds") {
    Dimension dim = line.count();
    line.take(':');
    std::shared_ptr<Shape> shape = std::make_shared<Shape>(dim);
    shape->add_constraints(line.constraints());
    place(out).shape = shape;
    return "ok";
  }
  if (word == "sprint")
    return "";
  std::string one = line.word();
  if (word == "shape") {
    std::shared_ptr<Shape> shape = std::make_shared<Shape>(closed_of(one));
    place(out).shape = shape;
    return "ok";
  }
  if (word == "smeet" || word == "shull") {
    std::shared_ptr<Shape> shape = std::make_shared<Shape>(shape_of(one));
    if (word == "smeet")
      shape->intersection_assign(shape_of(line.word()));
    else
      shape->upper_bound_assign(shape_of(line.word()));
    place(out).shape = shape;
    return "ok";
  }
  if (word == "spoly") {
    keep(out, Set(ppl::C_Polyhedron(shape_of(one))));
    return "ok";
  }
  if (word == "rank") {
    keep(out, Set(ranking_functions(closed_of(one))));
    return "ok";
  }
  if (word == "widen") {
    Set s = set_of(line.word());
    s.closed->H79_widening_assign(closed_of(one));
    keep(out, std::move(s));
    return "ok";
  }
  Set s = set_of(one);
  change(s.get(), word, line);
  keep(out, std::move(s));
  return "ok";
}

// The comparison with the calculator's replies.

// The set of a file, in its lines up to `end`.
static Set of_file(const std::vector<std::string>& lines, bool is_generators) {
  std::vector<bool> is_linear;
  std::size_t at = 0;
  std::vector<std::size_t> linear;
  for (; lines.at(at) != "begin"; ++at) {
    std::istringstream words(lines[at]);
    std::string word;
    std::size_t count = 0, row;
    if (words >> word && word == "linearity" && words >> count)
      while (count-- > 0 && words >> row)
        linear.push_back(row);
  }
  std::size_t rows, columns;
  std::istringstream(lines.at(++at)) >> rows >> columns;
  Constraint_System constraints;
  Generator_System generators;
  for (std::size_t row = 1; row <= rows; ++row) {
    std::istringstream words(lines.at(at + row));
    std::vector<mpq_class> entries(columns);
    mpz_class divisor = 1;
    for (mpq_class& entry : entries) {
      std::string text;
      words >> text;
      entry = mpq_class(text, 10);
      entry.canonicalize();
      mpz_lcm(divisor.get_mpz_t(), divisor.get_mpz_t(), entry.get_den_mpz_t());
    }
    Linear_Expression sum;
    for (std::size_t j = 1; j < columns; ++j)
      sum += mpz_class(entries[j] * divisor) * Variable(j - 1);
    const mpz_class first(entries[0] * divisor);
    bool is_line = std::find(linear.begin(), linear.end(), row) != linear.end();
    if (!is_generators)
      constraints.insert(is_line ? sum + first == 0 : sum + first >= 0);
    else if (is_line)
      generators.insert(ppl::Generator::line(sum));
    else if (first == 0)
      generators.insert(ppl::Generator::ray(sum));
    else
      generators.insert(ppl::Generator::point(sum, first));
  }
  if (!is_generators)
    return of_constraints(true, columns - 1, constraints);
  // rays without a point generate nothing; a V-file of them is taken from the origin
  return of_generators(true, columns - 1, generators);
}

static mpq_class value_of(const Linear_Expression& sum, const ppl::Generator& point) {
  mpz_class all = sum.inhomogeneous_term() * point.divisor();
  for (Dimension i = 0; i < sum.space_dimension(); ++i)
    if (i < point.space_dimension())
      all += sum.coefficient(Variable(i)) * point.coefficient(Variable(i));
  mpq_class value(all, point.divisor());
  value.canonicalize();
  return value;
}

// A bound, whether it is attained, and a witness that has the value and lies in the closure, or in the set.
static bool is_bound(const std::string& ours, const std::string& theirs, const Set& s, Reader& line) {
  if (theirs == "empty" || theirs == "unbounded" || ours.compare(0, theirs.size() + 1, theirs + " ") != 0)
    return ours == theirs;
  const ppl::Generator witness = Reader(ours.c_str() + theirs.size() + 1).generator();
  line.take(':');
  if (value_of(line.sum(), witness) != mpq_class(theirs.substr(0, theirs.find(' '))))
    return false;
  if (theirs.find("not") == std::string::npos)
    return witness.is_point() && is_in(s.get(), witness);
  Set whole(s);
  whole.get().topological_closure_assign();
  return is_in(whole.get(), ppl::Generator::point(Linear_Expression(witness.expression()), witness.divisor()));
}

static bool is_missing(const std::string& point_text, const Powerset& s, const Powerset& t) {
  const ppl::Generator point = Reader(point_text.c_str()).generator();
  bool in_first = false, in_second = false;
  for (const Set& member : s.members)
    in_first |= is_in(member.get(), point);
  for (const Set& member : t.members)
    in_second |= is_in(member.get(), point);
  return in_second && !in_first;
}

static bool is_ranking(const std::string& ours, const ppl::C_Polyhedron& relation) {
  const ppl::C_Polyhedron functions = ranking_functions(relation);
  if (ours == "none")
    return functions.is_empty();
  Fraction value = Reader(ours.c_str()).fraction();
  Linear_Expression factors = value.sum.inhomogeneous_term() * Variable(functions.space_dimension() - 1);
  for (Dimension i = 0; i < value.sum.space_dimension(); ++i)
    factors += value.sum.coefficient(Variable(i)) * Variable(i);
  return is_in(functions, ppl::Generator::point(factors, value.divisor));
}

// The printed bounds make the same shape, and each is attained.
static bool is_shape(const std::string& ours, const Shape& shape) {
  Shape read(shape.space_dimension());
  read.add_constraints(Reader(ours.c_str()).constraints());
  if (shape.is_empty() || ours == "true")
    return read == shape;
  for (const ppl::Constraint& row : Reader(ours.c_str()).list_of_constraints()) {
    mpz_class over, under;
    bool is_attained;
    Linear_Expression sum(row.expression());
    if (!shape.minimize(sum, over, under, is_attained) || over != 0)
      return false;
  }
  return read == shape;
}

static bool is_printed(const std::string& ours, const Set& s, bool is_generators) {
  if (is_generators) {
    const Generator_System all = Reader(ours.c_str()).generators();
    return of_generators(bool(s.closed), s.dim(), all).get() == s.get() &&
           (!s.closed || rows_of(all) == rows_of(s.get().minimized_generators()));
  }
  Constraint_System all = Reader(ours.c_str()).constraints();
  const std::size_t rows = ours == "true" ? 0 : 1 + std::count(ours.begin(), ours.end(), ',');
  return of_constraints(bool(s.closed), s.dim(), all).get() == s.get() &&
         (!s.closed || rows == rows_of(s.get().minimized_constraints()));
}

// Whether PPL's answer to a line is the calculator's.
static bool is_same(const std::string& text, const std::string& ours, const std::string& theirs) {
  Reader line(text.c_str());
  const std::string word = line.word(), name = line.word();
  if (word == "print")
    return is_printed(ours, set_of(line.word()), name == "gens");
  if (word == "sprint")
    return is_shape(ours, shape_of(name));
  if (word == "size")
    return set_of(name).closed ? ours == theirs : ours.compare(0, theirs.size() + 1, theirs + " ") == 0;
  if (word == "max" || word == "min")
    return is_bound(ours, theirs, set_of(name), line);
  if (word == "ranking")
    return is_ranking(ours, closed_of(name));
  if (word == "covers" && theirs == "no")
    return ours.compare(0, 3, "no ") == 0 && is_missing(ours.substr(3), powerset_of(name), powerset_of(line.word()));
  return ours == theirs;
}

static bool begins(const std::string& text, const char* with) { return text.compare(0, std::string(with).size(), with) == 0; }

struct Comparison {
  std::vector<std::string> script, replies;
  std::size_t at = 0, reply = 0, lines = 0, compared = 0, differences = 0;

  std::string next_reply() { return reply < replies.size() ? replies[reply++] : "no reply"; }

  // The lines up to and including `end`.
  static std::vector<std::string> file(const std::vector<std::string>& from, std::size_t& at) {
    std::vector<std::string> lines;
    while (at < from.size() && from[at++] != "end")
      lines.push_back(from[at - 1]);
    return lines;
  }

  void tell(const std::string& line, const std::string& ours, const std::string& theirs) {
    ++differences;
    std::cout << "line " << at << ": " << line << "\n  the calculator: " << ours << "\n  PPL: " << theirs << '\n';
  }

  bool is_refused(const std::string& line, const std::string& ours) {
    if (begins(ours, "fault 11 ")) {
      Reader words(line.c_str());
      words.word(), words.word();
      const Set &p = set_of(words.word()), &q = set_of(words.word());
      ++compared;
      if (q.get().contains(p.get()))
        tell(line, ours, "the sets are nested");
    }
    return begins(ours, "fault ") || begins(ours, "overflow ");
  }

  void compare(const std::string& line) {
    Reader words(line.c_str());
    const std::string word = words.word(), name = words.word();
    ++lines;
    if (word == "read") {
      const std::string ours = next_reply();
      // a line that is refused itself opens no file
      if (begins(ours, "fault 1 ") || begins(ours, "fault 14 "))
        return;
      const std::vector<std::string> rows = file(script, at);
      if (!is_refused(line, ours))
        keep(name, of_file(rows, words.word() == "ext"));
      return;
    }
    const std::string ours = next_reply();
    if (is_refused(line, ours))
      return;
    ++compared;
    if (word == "write") {
      if (!(of_file(file(replies, reply), words.word() == "ext").get() == set_of(name).get()))
        tell(line, "a file of another set", "");
      return;
    }
    const std::string theirs = answer(line);
    if (!is_same(line, ours, theirs))
      tell(line, ours, theirs);
  }

  void run() {
    while (at < script.size()) {
      std::string line = script[at++];
      line = line.substr(0, line.find('#'));
      if (line.find_first_not_of(" \t\r") == std::string::npos)
        continue;
      try {
        compare(line);
      } catch (const std::exception& error) {
        tell(line, reply > 0 ? replies[reply - 1] : "", error.what());
      }
    }
    if (reply != replies.size())
      tell("the end", std::to_string(replies.size()) + " lines of replies", std::to_string(reply));
  }
};

static std::vector<std::string> lines_of(std::istream& in) {
  std::vector<std::string> all;
  for (std::string line; std::getline(in, line);)
    all.push_back(line);
  return all;
}

int main(int count, char** words) {
  std::ios::sync_with_stdio(false);
  if (count < 2) {
    std::string line;
    while (std::getline(std::cin, line))
      std::cout << answer(line) << '\n';
    return 0;
  }
  Comparison all;
  all.script = lines_of(std::cin);
  std::ifstream replies(words[1]);
  all.replies = lines_of(replies);
  all.run();
  std::cout << all.lines << ' ' << all.compared << ' ' << all.differences << '\n';
  return all.differences != 0;
}
