/*
 * Replays the rows of tests/rows through gix_validate.hpp, and checks what no
 * row can say: messages, types of valid names, and what each version of C++
 * adds.
 *
 *     rows FILE
 *     rows -
 *
 * It prints how many rows were replayed, and what the version of C++ has. The
 * status is 1 if a result is wrong. In the place of all this, `rows -` replays
 * rows from standard input, and prints for each `ok` or `wrong`.
 */
#include "gix_validate.hpp"

#include <fstream>
#include <iostream>
#include <map>
#include <set>
#include <sstream>
#include <unordered_set>

using gix_validate::branch_name;
using gix_validate::fault;
using gix_validate::kind;
using gix_validate::protect;
using gix_validate::valid;
using std::string;
using std::string_view;

namespace {

string place;
int failures = 0;

void expect(bool holds, const char *what) {
  if (!holds) {
    std::cerr << place << "\n    does not hold: " << what << '\n';
    failures++;
  }
}
#define EXPECT(...) expect((__VA_ARGS__), #__VA_ARGS__)

/* The type of valid names of a kind, without the kind. */
struct parsed {
  bool is_some;
  string name;
};
template <kind Kind, protect Protect> parsed parse(string_view name) {
  const auto found = valid<Kind, Protect>::parse(name);
  const auto moved = valid<Kind, Protect>::parse(string(name));
  const auto viewed = valid<Kind, Protect, string_view>::parse(name);
  EXPECT(found == moved && bool(found) == bool(viewed));
  EXPECT(bool(found) == !valid<Kind, Protect>::check(name));
  EXPECT(!viewed || viewed->str().data() == name.data());
#if defined(__cpp_lib_expected)
  const auto expected = valid<Kind, Protect>::parse_or_error(name);
  EXPECT(bool(expected) == bool(found));
  EXPECT(expected
             ? *expected == *found
             : expected.error() == gix_validate::check(Kind, name, Protect));
#endif
  return {bool(found), found ? found->str() : ""};
}

/* A kind by its word in the rows: its function, and its types. */
struct called {
  kind of;
  std::optional<gix_validate::error> (*check)(string_view, protect);
  parsed (*parse_all)(string_view);
  parsed (*parse_none)(string_view);
};
#define KIND(word, it, call)                                                   \
  {                                                                            \
    word, {                                                                    \
      kind::it,                                                                \
          []([[maybe_unused]] string_view name,                                \
             [[maybe_unused]] protect under) { return call; },                 \
          parse<kind::it, protect::all>, parse<kind::it, protect::none>        \
    }                                                                          \
  }
#define PLAIN(word, it) KIND(word, it, gix_validate::check_##it(name))
#define UNDER(word, it) KIND(word, it, gix_validate::check_##it(name, under))
const std::map<string, called> kinds = {
    PLAIN("branch", branch),
    PLAIN("branch-ref", branch_ref),
    PLAIN("tag", tag),
    PLAIN("ref", ref),
    PLAIN("partial", partial),
    PLAIN("tag-name", tag_name),
    UNDER("safe-ref", safe_ref),
    UNDER("path", path),
    UNDER("symlink-path", symlink_path),
    UNDER("component", component),
    UNDER("symlink", symlink),
    UNDER("submodule", submodule),
};

/* Those of a row's letters. (w is the bit of Windows' own rules, which has no
   name: `protect::windows` also has that of NTFS.) */
protect protections_of(const string &letters) {
  protect all = protect::none;
  for (const char it : letters) {
    all = all | (it == 'w'   ? protect(1)
                 : it == 'h' ? protect::hfs
                             : protect::ntfs);
  }
  return all;
}

/* The bytes that a quoted text of a row stands for. */
string decoded(const string &quoted) {
  string bytes;
  for (std::size_t at = 0; at < quoted.size(); at++) {
    if (quoted[at] == '\\') {
      bytes += char(std::stoi(quoted.substr(at + 2, 2), nullptr, 16));
      at += 3;
    } else {
      bytes += quoted[at];
    }
  }
  return bytes;
}

/* What is before the first of these characters, and what is after it, if there
   is one. (std::regex takes as long to compile as all the rest.) */
std::pair<string, std::optional<string>> cut(const string &text, char at) {
  const auto found = text.find(at);
  if (found == string::npos) {
    return {text, std::nullopt};
  }
  return {text.substr(0, found), text.substr(found + 1)};
}

/* `answer` is the fault, perhaps the byte, perhaps the offset, and perhaps the
   printed text, as in `InvalidByte:20@2 ..`. */
void check_kind(const called &it, protect under, const string &name,
                const string &answer) {
  const auto [code, text] = cut(answer, ' ');
  const auto [word_and_byte, offset] = cut(code, '@');
  const auto [word, byte] = cut(word_and_byte, ':');
  const auto error = gix_validate::check(it.of, name, under);
  EXPECT(error == gix_validate::check(it.of, name, under));
  if (const auto own = it.check(name, under); own) {
    EXPECT(error && own->fault == error->fault && own->offset == error->offset);
    EXPECT(own->message(name) == error->message(name));
  } else {
    EXPECT(!error);
  }
  const fault found = error ? error->fault : fault::ok;
  EXPECT(gix_validate::name_of(found) == word);
  EXPECT((found == fault::invalid_byte) == byte.has_value());
  if (error) {
    EXPECT(error->offset <= name.size());
    EXPECT(!byte || decoded("\\x" + *byte) == name.substr(error->offset, 1));
    EXPECT(!offset || std::to_string(error->offset) == *offset);
    EXPECT(!text || error->text(name) == *text);
    EXPECT(error->message(name).substr(0, error->text(name).size()) ==
           error->text(name));
  }
  for (const auto &[protection, parse] :
       {std::pair(protect::all, it.parse_all),
        std::pair(protect::none, it.parse_none)}) {
    const auto [is_some, owned] = parse(name);
    EXPECT(is_some == !gix_validate::check(it.of, name, protection));
    EXPECT(!is_some || owned == name);
  }
  const auto all =
      gix_validate::check_all(it.of, std::vector<string>{name, name}, under);
  EXPECT(all == std::vector<fault>{found, found});
#if defined(__cpp_lib_span)
  const std::array<string_view, 2> names = {name, name};
  std::array<fault, 3> faults = {};
  EXPECT(gix_validate::check_all(it.of, names, faults, under) == 2);
  EXPECT(faults == std::array<fault, 3>{found, found, fault::ok});
#endif
}

/* `answer` is how many names there are, and the fault of each. */
void check_many(const called &it, protect under, const string &names, char end,
                const string &answer) {
  const auto faults = gix_validate::check_joined(it.of, names, end, under);
  string said = std::to_string(faults.size());
  for (const fault each : faults) {
    (said += ' ') += gix_validate::name_of(each);
  }
  EXPECT(said == answer);
}

void check_other(const string &call, const string &name, const string &answer) {
  const auto quoted = [&] {
    return decoded(answer.substr(1, answer.size() - 2));
  };
  if (call == "sanitize") {
    EXPECT(gix_validate::sanitize(name).view() == quoted());
  } else if (call == "suggest") {
    const auto found = gix_validate::suggest(name);
    EXPECT(bool(found) == (answer != "none"));
    EXPECT(!found || found->view() == quoted());
  } else {
    EXPECT(call == "device");
    EXPECT(gix_validate::is_windows_device(name) == (answer == "yes"));
  }
}

/* `row` is perhaps `many:` and the byte that ends each name, the call, perhaps
   its protections, the name and the answer, as in `path:wn "a/aux" ..`. */
void check_row(const string &row) {
  place = row;
  const auto [before, after] = cut(row, '"');
  const auto [quoted, answer] = cut(after.value_or(""), '"');
  const bool is_many = before.compare(0, 5, "many:") == 0;
  const std::size_t start = is_many ? 8 : 0;
  if (before.size() <= start || before.back() != ' ' || !answer ||
      (*answer)[0] != ' ') {
    expect(false, "it is a row");
    return;
  }
  const auto [call, letters] =
      cut(before.substr(start, before.size() - start - 1), ':');
  const string name = decoded(quoted), said = answer->substr(1);
  const auto found = kinds.find(call);
  const auto under = protections_of(letters.value_or(""));
  if (found == kinds.end()) {
    check_other(call, name, said);
  } else if (is_many) {
    const char end = decoded("\\x" + before.substr(5, 2))[0];
    check_many(found->second, under, name, end, said);
  } else {
    check_kind(found->second, under, name, said);
  }
}

int check_rows(std::istream &file, bool each) {
  int rows = 0;
  for (string row; std::getline(file, row);) {
    if (row.empty() || row[0] == '#') {
      continue;
    }
    const int before = failures;
    check_row(row);
    rows++;
    if (each) {
      std::cout << (failures == before ? "ok" : "wrong") << std::endl;
    }
  }
  return rows;
}

/* The line of an invalid name. */
string message(kind of, const string &name, protect under = protect::all) {
  return gix_validate::check(of, name, under).value().message(name);
}

void check_messages() {
  place = "messages";
  EXPECT(message(kind::ref, "") == "Reference name cannot be empty");
  EXPECT(message(kind::branch, "a..b") ==
         "Reference name cannot contain repeated dots ('.' at byte 2)");
  EXPECT(message(kind::branch, "feature/.hidden") ==
         "Reference name cannot start with a dot ('.' at byte 8, in "
         "\".hidden\")");
  EXPECT(message(kind::ref, "a//b") ==
         "Reference name cannot contain repeated slashes ('/' at byte 2)");
  EXPECT(message(kind::path, "src/") ==
         "A path must not be empty, start or end with a slash, or have two in "
         "a row (at the end)");
  EXPECT(message(kind::ref, "refs/a\n\"\\\xc3\xa9\x01/b") ==
         "Reference name contains invalid byte: \"\\n\" ('\\n' at byte 6, in "
         "\"a\\n\\\"\\\\\\xc3\\xa9\\x01\")");
  EXPECT(message(kind::path, string("src/a\0b", 7), protect::none) ==
         "A path must not have a NUL byte ('\\0' at byte 5, in \"a\\0b\")");
}

void check_protections() {
  place = "Windows includes NTFS";
  EXPECT(gix_validate::check_path("aux.c", protect::windows).has_value());
  EXPECT(gix_validate::check_path("git~1", protect::windows).has_value());
  EXPECT(!gix_validate::check_path("aux.c", protect::hfs).has_value());
}

/* An error that is shown with a name that isn't its own. */
void check_other_names() {
  place = "another name than the error's";
  const auto error = gix_validate::check_branch("some/long..name").value();
  EXPECT(error.message("main") == "it has two dots in a row (at the end)");
  EXPECT(error.message("") == "Reference name cannot be empty");
  EXPECT(error.text("main") == gix_validate::fault_text(fault::repeated_dot));
  EXPECT(error != gix_validate::check_branch("a..b").value());
}

void check_types() {
  place = "types of valid names";
  using branch_view = valid<kind::branch, protect::all, string_view>;
  const string_view typed = "main";
  static_assert(noexcept(branch_view::parse(typed)));
  static_assert(noexcept(branch_name::parse(string())));
  static_assert(!noexcept(branch_name::parse(typed)));
  static_assert(noexcept(gix_validate::check_branch(typed)));
  static_assert(!std::is_default_constructible_v<branch_name>);
  static_assert(!std::is_constructible_v<branch_name, string>);
  static_assert(!std::is_convertible_v<gix_validate::tag_name, branch_name>);
  static_assert((protect::windows | protect::hfs) == protect::all);
  static_assert((protect::windows & protect::ntfs) == protect::ntfs);
  static_assert((protect::windows & protect::hfs) == protect::none);
  string given(100, 'a');
  const char *bytes = given.data();
  EXPECT(branch_name::parse(given).value().view().data() != bytes);
  branch_name name = branch_name::parse(std::move(given)).value();
  EXPECT(name.view().data() == bytes);
  EXPECT(std::move(name).str().data() == bytes);
  const auto a = branch_name::parse("a"), b = branch_name::parse("b");
  EXPECT(*a < *b && *a != *b && *a == branch_name::parse(*a));
  EXPECT(std::set<branch_name>{*b, *a, *b}.size() == 2);
  EXPECT(std::unordered_set<branch_name>{*b, *a, *b}.size() == 2);
  EXPECT(!branch_name::parse("a..b"));
  EXPECT(gix_validate::version() == GIX_VALIDATE_VERSION);
}

void check_texts_next_to_names() {
  place = "a text next to a name";
  const string text = "main", other = "a";
  const auto name = branch_name::parse(text);
  const auto view =
      valid<kind::branch, protect::all, string_view>::parse(text).value();
  EXPECT(*name == "main" && "main" == *name && *name == text && text == *name);
  EXPECT(*name != "a" && "a" != *name && *name != other && other != *name);
  EXPECT(!(*name == other) && !(other == *name));
  EXPECT(!(*name != text) && !(text != *name));
  EXPECT(name == text && text == name && name != other && other != name);
  EXPECT(view == text && text == view && view != other && other != view);
  std::ostringstream said;
  (said << *name << ' ').width(5);
  said << view;
  EXPECT(said.str() == "main  main");
}

/* What this version of C++ adds. */
string additions() {
  string said;
#if defined(__cpp_lib_three_way_comparison)
  said += ", <=>";
  EXPECT((*branch_name::parse("a") <=> *branch_name::parse("b")) < 0);
#endif
#if defined(__cpp_lib_span)
  said += ", span";
#endif
#if defined(__cpp_lib_char8_t)
  said += ", u8";
  EXPECT(!gix_validate::check_branch(gix_validate::bytes(u8"gr\u00f6\u00dfe")));
  EXPECT(gix_validate::bytes(u8"\u00f6") == "\xc3\xb6");
#endif
#if defined(__cpp_lib_expected)
  said += ", expected";
#endif
  return said;
}

} // namespace

int main(int count, char **arguments) {
  if (count == 2 && arguments[1] == string_view("-")) {
    check_rows(std::cin, true);
    return failures == 0 ? 0 : 1;
  }
  std::ifstream file(count == 2 ? arguments[1] : "");
  const int rows = check_rows(file, false);
  check_messages();
  check_protections();
  check_other_names();
  check_types();
  check_texts_next_to_names();
  const string more = additions();
  std::cout << rows << " rows, " << failures << " wrong" << more << '\n';
  return failures == 0 && rows > 0 ? 0 : 1;
}
