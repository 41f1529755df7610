/*
 * Validation of the names that Git uses, for C++17 and later: branches, tags,
 * references, paths and submodules.
 *
 *     #include "gix_validate.hpp"
 *
 *     if (auto error = gix_validate::check_branch(name))
 *       std::cerr << error->message(name) << '\n';
 *
 * All of it is inline, over the functions of gix_validate.h, which has to be
 * next to this file or on the include path. What that header says about memory,
 * threads and linking holds here, too. The rules are those of docs/RULES.md.
 *
 *  - A name is a std::string_view: any bytes, which need not be UTF-8. A C
 *    string ends at its first NUL, as always.
 *  - Functions that are noexcept don't allocate. The others throw only if an
 *    allocation fails.
 *  - Functions with a parameter for protections protect all systems by default,
 *    because refusing a harmless name is better than accepting a hostile one.
 *
 * Later versions of C++ add: operator<=>, spans and u8"" (C++20), and
 * std::expected (C++23).
 */
#ifndef GIX_VALIDATE_HPP
#define GIX_VALIDATE_HPP

#if defined(_MSVC_LANG) ? _MSVC_LANG < 201703L : __cplusplus < 201703L
#error "gix_validate.hpp needs C++17 or later"
#endif

#include "gix_validate.h"

#include <array>
#include <cstddef>
#include <cstdint>
#include <functional>
#include <iosfwd>
#include <optional>
#include <string>
#include <string_view>
#include <type_traits>
#include <utility>
#include <vector>
#if __has_include(<version>)
#include <version>
#endif
#if defined(__cpp_lib_three_way_comparison)
#include <compare>
#endif
#if defined(__cpp_lib_span)
#include <span>
#endif
#if defined(__cpp_lib_expected)
#include <expected>
#endif

namespace gix_validate {

/// The kinds of names. For each there is a function `check_KIND`, whose comment
/// says what the kind is.
enum class kind : std::uint32_t {
  branch = GIX_VALIDATE_KIND_BRANCH,
  branch_ref = GIX_VALIDATE_KIND_BRANCH_REF,
  tag = GIX_VALIDATE_KIND_TAG,
  ref = GIX_VALIDATE_KIND_REF,
  partial = GIX_VALIDATE_KIND_PARTIAL,
  tag_name = GIX_VALIDATE_KIND_TAG_NAME,
  safe_ref = GIX_VALIDATE_KIND_SAFE_REF,
  path = GIX_VALIDATE_KIND_PATH,
  symlink_path = GIX_VALIDATE_KIND_SYMLINK_PATH,
  component = GIX_VALIDATE_KIND_COMPONENT,
  symlink = GIX_VALIDATE_KIND_SYMLINK,
  submodule = GIX_VALIDATE_KIND_SUBMODULE,
};

/// Why a name is invalid. The numbers are stable, and those of C.
enum class fault : std::uint8_t {
  // clang-format off
  ok = 0,                         // not a fault: the name is valid
  invalid_byte = 1,               // it has a byte below 0x20, a space, DEL, or one of : ? [ \ ^ ~
  starts_with_slash = 2,          // it starts with a slash
  repeated_slash = 3,             // it has two slashes in a row
  repeated_dot = 4,               // it has two dots in a row
  lock_file_suffix = 5,           // a piece between slashes ends in .lock
  reflog_portion = 6,             // it has @{
  asterisk = 7,                   // it has a *
  starts_with_dot = 8,            // a piece between slashes starts with a dot
  ends_with_dot = 9,              // it ends in a dot
  ends_with_slash = 10,           // it ends in a slash
  empty = 11,                     // it is empty
  some_lowercase = 12,            // it has no slash, and a byte other than A to Z and _, such as a digit
  reserved = 13,                  // it is reserved: @, HEAD as a branch or tag, or refs/heads/HEAD
  parent_component = 14,          // a part of it is ..
  path_separator = 15,            // it has a slash, or with Windows protection a backslash
  windows_path_prefix = 16,       // a colon follows its first unit, as in C:
  windows_reserved_name = 17,     // it is a device, such as NUL or com1.txt
  windows_illegal_character = 18, // it has a byte below 0x20 or one of <>:"|?*, or a dot or space last
  dot_git_dir = 19,               // it is .git, or may be read as that
  symlinked_git_modules = 20,     // it is a symlink, and .gitmodules, or may be read as that
  relative = 21,                  // it is . or ..
  starts_with_dash = 22,          // it starts with a dash, as an option does
  empty_part = 23,                // a part is empty: a slash is first or last, or follows another one, or the path is empty
  nul = 24,                       // it has a NUL byte, although each part is a component
  outside_refs = 25,              // it is not below refs/, and has a byte other than A to Z and _
  disguised = 26,                 // a part may be taken for . or ..
  unknown_kind = 255,             // there is no such kind, whatever the name
  // clang-format on
};

/// What paths, components, safe references and submodules are protected
/// against. The other kinds ignore it. `windows` includes `ntfs`.
enum class protect : std::uint32_t {
  none = GIX_VALIDATE_PROTECT_NONE,
  windows = GIX_VALIDATE_PROTECT_WINDOWS,
  hfs = GIX_VALIDATE_PROTECT_HFS,
  ntfs = GIX_VALIDATE_PROTECT_NTFS,
  all = GIX_VALIDATE_PROTECT_ALL,
};
[[nodiscard]] constexpr protect operator|(protect left,
                                          protect right) noexcept {
  return protect(std::uint32_t(left) | std::uint32_t(right));
}
[[nodiscard]] constexpr protect operator&(protect left,
                                          protect right) noexcept {
  return protect(std::uint32_t(left) & std::uint32_t(right));
}

/// The name of a fault, such as "RepeatedDot".
[[nodiscard]] inline std::string_view name_of(fault it) noexcept {
  return gix_validate_fault_name(std::uint32_t(it));
}

/// What a fault means, whatever the kind of the name. It is the end of a
/// sentence about the name: "it has two dots in a row".
[[nodiscard]] inline std::string_view fault_text(fault it) noexcept {
  return gix_validate_fault_text(std::uint32_t(it));
}

/// What is wrong with a name, and where. It doesn't keep the name, so pass the
/// name again to functions that print it.
struct error {
  gix_validate::kind kind;
  gix_validate::protect protect;
  /// Why the name is invalid; never `ok`.
  gix_validate::fault fault;
  /// Where that is, in bytes. It is the length of the name if something is
  /// missing at the end.
  std::size_t offset;

  /// The printed text of the fault, such as "Reference name cannot contain
  /// repeated dots".
  [[nodiscard]] std::string text(std::string_view name) const;

  /// The text and what is at the offset, on one line: "Reference name cannot
  /// start with a dot ('.' at byte 8, in ".hidden")".
  [[nodiscard]] std::string message(std::string_view name) const;

  [[nodiscard]] friend constexpr bool operator==(const error &left,
                                                 const error &right) noexcept {
    return left.kind == right.kind && left.protect == right.protect &&
           left.fault == right.fault && left.offset == right.offset;
  }
  [[nodiscard]] friend constexpr bool operator!=(const error &left,
                                                 const error &right) noexcept {
    return !(left == right);
  }
};

/// Validates a name of a kind that is known only at run time. Returns nothing
/// if it is valid.
[[nodiscard]] inline std::optional<error>
check(kind of, std::string_view name, protect under = protect::all) noexcept {
  std::size_t offset = 0;
  const auto number =
      gix_validate_fault_at(name.data(), name.size(), std::uint32_t(under),
                            std::uint32_t(of), &offset);
  if (number == GIX_VALIDATE_OK) {
    return std::nullopt;
  }
  return error{of, under, fault(number), offset};
}

/// A branch as people write it, such as `main`: `refs/heads/` followed by it is
/// a full branch name, and it doesn't start with a dash.
[[nodiscard]] inline std::optional<error>
check_branch(std::string_view name) noexcept {
  return check(kind::branch, name);
}

/// A full branch name, such as `refs/heads/main`: a full reference name other
/// than `refs/heads/HEAD`. `HEAD` and `refs/tags/v1` pass too, and `main`
/// doesn't.
[[nodiscard]] inline std::optional<error>
check_branch_ref(std::string_view name) noexcept {
  return check(kind::branch_ref, name);
}

/// A tag as people write it, such as `v1.2.3`: `refs/tags/` followed by it is a
/// full reference name. It doesn't start with a dash, and isn't `HEAD`.
[[nodiscard]] inline std::optional<error>
check_tag(std::string_view name) noexcept {
  return check(kind::tag, name);
}

/// A full reference name: a partial name that has a slash, such as
/// `refs/heads/main`, or no byte but `A` to `Z` and `_`, such as `HEAD`.
[[nodiscard]] inline std::optional<error>
check_ref(std::string_view name) noexcept {
  return check(kind::ref, name);
}

/// A partial reference name, such as `main` or `heads/main`: a tag name other
/// than `@`.
[[nodiscard]] inline std::optional<error>
check_partial(std::string_view name) noexcept {
  return check(kind::partial, name);
}

/// A tag name by the rule of the Rust crate gix-validate. `HEAD` and `-d` pass,
/// which Git refuses: `check_tag` is for what people write.
[[nodiscard]] inline std::optional<error>
check_tag_name(std::string_view name) noexcept {
  return check(kind::tag_name, name);
}

/// A full reference name that a store may use as a path: it is below `refs/`,
/// or has no byte but `A` to `Z` and `_`. Each piece between slashes is also a
/// component.
[[nodiscard]] inline std::optional<error>
check_safe_ref(std::string_view name, protect under = protect::all) noexcept {
  return check(kind::safe_ref, name, under);
}

/// A path, such as `src/main.rs`: each part between slashes is a component, and
/// there is no NUL. A slash at the end is invalid, so cut off that of an
/// archive's directory, such as `dir/`.
[[nodiscard]] inline std::optional<error>
check_path(std::string_view path, protect under = protect::all) noexcept {
  return check(kind::path, path, under);
}

/// The path of a symbolic link. Its last part may not be `.gitmodules`.
[[nodiscard]] inline std::optional<error>
check_symlink_path(std::string_view path,
                   protect under = protect::all) noexcept {
  return check(kind::symlink_path, path, under);
}

/// A component of a path, such as `src`: one name in a directory.
///
/// A valid component may contain a NUL unless Windows is protected, as it is by
/// default. open() ends a name at its first NUL: for `.git`, a NUL and `x` it
/// opens `.git`. `check_path` accepts no NUL at all.
[[nodiscard]] inline std::optional<error>
check_component(std::string_view name, protect under = protect::all) noexcept {
  return check(kind::component, name, under);
}

/// A component that is a symbolic link. It may not be `.gitmodules`.
[[nodiscard]] inline std::optional<error>
check_symlink(std::string_view name, protect under = protect::all) noexcept {
  return check(kind::symlink, name, under);
}

/// A submodule name, such as `vendor/package`: it isn't empty, and no part
/// between its slashes and backslashes is `..`. Unless `protect` is `none`, it
/// is also a path, and no part is one that some system reads as `.` or `..`.
///
/// With `none` a valid name may contain a NUL, at which open() ends it.
[[nodiscard]] inline std::optional<error>
check_submodule(std::string_view name, protect under = protect::all) noexcept {
  return check(kind::submodule, name, under);
}

/// Whether Windows takes the name for a device, such as `NUL`, `com1.txt` or
/// `CONIN$`.
[[nodiscard]] inline bool is_windows_device(std::string_view name) noexcept {
  return gix_validate_is_windows_device(name.data(), name.size());
}

/// The version of the library: major * 1000000 + minor * 1000 + patch.
/// `GIX_VALIDATE_VERSION` is that of the headers.
[[nodiscard]] inline std::uint32_t version() noexcept {
  return gix_validate_version();
}

/// The fault of each of the names, or `ok`: `names` is a range whose elements
/// convert to std::string_view, such as a std::vector<std::string>, or a view
/// that makes its elements as it goes.
template <class Names>
[[nodiscard]] std::vector<fault> check_all(kind of, Names &&names,
                                           protect under = protect::all) {
  std::vector<fault> faults;
  for (auto &&each : names) { // (A temporary lives as long as `each`.)
    const std::string_view name = each;
    faults.push_back(fault(gix_validate_fault_of(
        name.data(), name.size(), std::uint32_t(under), std::uint32_t(of))));
  }
  return faults;
}

/// The fault of each name of a buffer in which the byte `end` ends each name,
/// or `ok`. What follows the last such byte is a name too, unless it is empty.
///
/// If you join names for this call, compare the size of the result with how
/// many you joined: a hostile name may contain the byte that ends names.
[[nodiscard]] inline std::vector<fault>
check_joined(kind of, std::string_view names, char end,
             protect under = protect::all) {
  const auto check = [&](std::uint8_t *faults, std::size_t size) {
    return gix_validate_faults_of(names.data(), names.size(),
                                  std::uint32_t(under), std::uint32_t(of),
                                  std::uint8_t(end), faults, size);
  };
  std::vector<fault> faults(check(nullptr, 0));
  check(reinterpret_cast<std::uint8_t *>(faults.data()), faults.size());
  GIX_VALIDATE_UNPOISON(faults.data(), faults.size());
  return faults;
}

#if defined(__cpp_lib_span)
/// Writes the fault of each of the names, or `ok`, to `faults`, as many as both
/// have, and returns how many it wrote.
inline std::size_t check_all(kind of, std::span<const std::string_view> names,
                             std::span<fault> faults,
                             protect under = protect::all) noexcept {
  const std::size_t count =
      names.size() < faults.size() ? names.size() : faults.size();
  for (std::size_t i = 0; i < count; i++) {
    faults[i] =
        fault(gix_validate_fault_of(names[i].data(), names[i].size(),
                                    std::uint32_t(under), std::uint32_t(of)));
  }
  return count;
}
#endif

#if defined(__cpp_lib_char8_t)
/// The bytes of UTF-8: `check_branch(bytes(u8"größe"))`.
[[nodiscard]] inline std::string_view bytes(std::u8string_view text) noexcept {
  return {reinterpret_cast<const char *>(text.data()), text.size()};
}
#endif

/// A name that is valid, because only `parse` makes one:
///
///     std::optional<branch_name> name = branch_name::parse(typed);
///
/// It owns its text. With a std::string_view as `Text` it is a view, which is
/// valid as long as the bytes don't change. Only the text of one that was moved
/// from may be invalid.
template <kind Kind, protect Protect = protect::all, class Text = std::string>
class valid {
public:
  /// What is wrong with a name, or nothing.
  [[nodiscard]] static std::optional<error>
  check(std::string_view name) noexcept {
    return gix_validate::check(Kind, name, Protect);
  }

  /// The name, if it is valid. A std::string that is moved in isn't copied.
  template <class Given>
  [[nodiscard]] static std::optional<valid>
  parse(Given &&name) noexcept(makes_without_memory<Given>) {
    const std::string_view given = name;
    if (check(given)) {
      return std::nullopt;
    }
    return valid(made_of<Given>(name, given));
  }

#if defined(__cpp_lib_expected)
  /// The name, or what is wrong with it.
  template <class Given>
  [[nodiscard]] static std::expected<valid, error>
  parse_or_error(Given &&name) noexcept(makes_without_memory<Given>) {
    const std::string_view given = name;
    if (const auto wrong = check(given)) {
      return std::unexpected(*wrong);
    }
    return valid(made_of<Given>(name, given));
  }
#endif

  [[nodiscard]] const Text &str() const &noexcept { return text_; }
  [[nodiscard]] Text str() &&noexcept { return std::move(text_); }
  [[nodiscard]] std::string_view view() const noexcept { return text_; }
  [[nodiscard]] operator std::string_view() const noexcept { return text_; }

  [[nodiscard]] friend bool operator==(const valid &left,
                                       const valid &right) noexcept {
    return left.view() == right.view();
  }
  [[nodiscard]] friend bool operator==(const valid &left,
                                       std::string_view right) noexcept {
    return left.view() == right;
  }
#if defined(__cpp_lib_three_way_comparison)
  [[nodiscard]] friend std::strong_ordering
  operator<=>(const valid &left, const valid &right) noexcept {
    return left.view() <=> right.view();
  }
#else
  [[nodiscard]] friend bool operator!=(const valid &left,
                                       const valid &right) noexcept {
    return left.view() != right.view();
  }
  [[nodiscard]] friend bool operator<(const valid &left,
                                      const valid &right) noexcept {
    return left.view() < right.view();
  }
  [[nodiscard]] friend bool operator==(std::string_view left,
                                       const valid &right) noexcept {
    return left == right.view();
  }
  [[nodiscard]] friend bool operator!=(const valid &left,
                                       std::string_view right) noexcept {
    return left.view() != right;
  }
  [[nodiscard]] friend bool operator!=(std::string_view left,
                                       const valid &right) noexcept {
    return left != right.view();
  }
#endif

  /// Writes the bytes of the name as they are.
  template <class Traits>
  friend std::basic_ostream<char, Traits> &
  operator<<(std::basic_ostream<char, Traits> &to, const valid &name) {
    return to << name.view();
  }

private:
  // (Given isn't a reference if the name may be moved from.)
  template <class Given>
  static constexpr bool makes_without_memory =
      std::is_same_v<Given, Text> ||
      std::is_nothrow_constructible_v<Text, std::string_view>;

  template <class Given>
  static Text made_of([[maybe_unused]] std::remove_reference_t<Given> &name,
                      [[maybe_unused]] std::string_view checked) {
    static_assert(!std::is_same_v<Text, std::string_view> ||
                      std::is_lvalue_reference_v<Given> ||
                      std::is_trivially_copyable_v<Given>,
                  "a view of a string that is gone after this call");
    if constexpr (std::is_same_v<Given, Text>) {
      return std::move(name);
    } else {
      return Text(checked);
    }
  }

  explicit valid(Text &&text) noexcept : text_(std::move(text)) {}
  Text text_;
};

/// The type `KIND_name` has the valid names of that kind, under all
/// protections. (For `kind::tag_name` it is `valid<kind::tag_name>`.)
using branch_name = valid<kind::branch>;
using branch_ref_name = valid<kind::branch_ref>;
using tag_name = valid<kind::tag>;
using ref_name = valid<kind::ref>;
using partial_name = valid<kind::partial>;
using safe_ref_name = valid<kind::safe_ref>;
using path_name = valid<kind::path>;
using symlink_path_name = valid<kind::symlink_path>;
using component_name = valid<kind::component>;
using symlink_name = valid<kind::symlink>;
using submodule_name = valid<kind::submodule>;

/// Suggests a branch for a name that a person typed, such as `Fix-it's-done`
/// for `Fix: it's done..`. A valid name is its own suggestion. There may be
/// none, as for `...`.
[[nodiscard]] inline std::optional<branch_name> suggest(std::string_view name) {
  std::string text(name.size(), '\0');
  text.resize(
      gix_validate_suggest(name.data(), name.size(), text.data(), text.size()));
  return branch_name::parse(std::move(text));
}

/// Repairs any bytes to a partial reference name. A valid one is left
/// unchanged.
[[nodiscard]] inline partial_name sanitize(std::string_view name) {
  std::string text(name.empty() ? 1 : name.size(), '\0');
  text.resize(gix_validate_sanitize(name.data(), name.size(), text.data(),
                                    text.size()));
  return partial_name::parse(std::move(text)).value();
}

namespace detail {

/// Appends bytes as a string literal has them between these quotes.
inline void append_quoted(std::string &to, std::string_view bytes, char quote) {
  constexpr std::string_view escaped = std::string_view("\0\t\n\r\\", 5);
  constexpr std::string_view letters = "0tnr\\";
  constexpr std::string_view digits = "0123456789abcdef";
  to += quote;
  for (const char it : bytes) {
    const auto byte = static_cast<unsigned char>(it);
    if (const auto at = escaped.find(it); at != escaped.npos) {
      (to += '\\') += letters[at];
    } else if (it == quote) {
      (to += '\\') += it;
    } else if (byte >= 0x20 && byte <= 0x7e) {
      to += it;
    } else {
      ((to += "\\x") += digits[byte >> 4]) += digits[byte & 15];
    }
  }
  to += quote;
}

} // namespace detail

inline std::string error::text(std::string_view name) const {
  std::array<char, GIX_VALIDATE_TEXT_MAX> buffer;
  const std::size_t length =
      gix_validate_text_of(name.data(), name.size(), std::uint32_t(protect),
                           std::uint32_t(kind), buffer.data(), buffer.size());
  GIX_VALIDATE_UNPOISON(buffer.data(), length);
  if (length == 0) { // It isn't the name that was checked.
    return std::string(fault_text(fault));
  }
  return {buffer.data(), length};
}

inline std::string error::message(std::string_view name) const {
  std::string said = text(name);
  if (name.empty()) {
    return said;
  }
  if (offset >= name.size()) {
    return said += " (at the end)";
  }
  const std::size_t before = name.substr(0, offset).rfind('/');
  const std::size_t start = before == name.npos ? 0 : before + 1;
  const std::size_t end = name.find('/', offset);
  const std::string_view piece =
      name.substr(start, end == name.npos ? end : end - start);
  detail::append_quoted(said += " (", name.substr(offset, 1), '\'');
  (said += " at byte ") += std::to_string(offset);
  if (!piece.empty() && piece.size() < name.size() && name[offset] != '/') {
    detail::append_quoted(said += ", in ", piece, '"');
  }
  return said += ')';
}

} // namespace gix_validate

template <gix_validate::kind Kind, gix_validate::protect Protect, class Text>
struct std::hash<gix_validate::valid<Kind, Protect, Text>> {
  [[nodiscard]] std::size_t operator()(
      const gix_validate::valid<Kind, Protect, Text> &it) const noexcept {
    return std::hash<std::string_view>()(it.view());
  }
};

#endif
