// Checks of the names that Git uses, and repairs of bad names, for Node,
// browsers, workers and bundlers.
//
// Each function calls a proved function of the Rattle crate gix_validate_c,
// compiled to WebAssembly. gix_validate.d.ts says what each does, docs/RULES.md
// the rules, docs/ASSURANCE.md what is proved and what is not.
//
// Nothing happens when this file is imported, since the first call makes the
// WebAssembly module. So a program starts even where none may be compiled, and
// a bundler keeps only what the program calls.
import wasm from "./gix_validate_wasm.mjs";

/**
 * The faults by their numbers, which are stable, and those of gix_validate.h.
 * That of a valid name, 0, is null. `scripts/dev update-fault-tables` writes
 * them.
 */
// clang-format off
export const FAULTS = /* @__PURE__ */ Object.freeze([null,
    "InvalidByte", "StartsWithSlash", "RepeatedSlash", "RepeatedDot", "LockFileSuffix", "ReflogPortion", "Asterisk",
    "StartsWithDot", "EndsWithDot", "EndsWithSlash", "Empty", "SomeLowercase", "Reserved", "ParentComponent",
    "PathSeparator", "WindowsPathPrefix", "WindowsReservedName", "WindowsIllegalCharacter", "DotGitDir",
    "SymlinkedGitModules", "Relative", "StartsWithDash", "EmptyPart", "Nul", "OutsideRefs", "Disguised"
]);
const OFFSET_SIZE = 8;
const TEXT_MAX = 134;

// The kinds by their numbers. Those from safeRef on have protections.
const KINDS = [
    "branch", "branchRef", "tag", "ref", "partialRef", "tagName",
    "safeRef", "path", "symlinkPath", "component", "symlink", "submodule",
];
const BRANCH = 0, BRANCH_REF = 1, TAG = 2, REF = 3, PARTIAL_REF = 4, TAG_NAME = 5;
const SAFE_REF = 6, PATH = 7, SYMLINK_PATH = 8, COMPONENT = 9, SYMLINK = 10, SUBMODULE = 11;
// clang-format on

// The flags of the protections. Windows includes NTFS.
const FLAGS = {
  windows: 5,
  hfs: 2,
  ntfs: 4
};
const PROTECT_ALL = 7;
const INVALID_BYTE = 1, RESERVED = 13;
const PAGE = 65536;
const PART = 256;
// A text that JSON.stringify only puts in quotes.
const PLAIN = /^[ !#-[\]-~]*$/;
// A lone surrogate, for which there is no UTF-8.
const LONE = /\p{Surrogate}/u;
const LONE_TEXT =
    "A name must be a well-formed string, without lone surrogates";

// What the first call makes: the module's functions, which have no allocator,
// and whose stack and constants end at __heap_base. From there on the memory is
// this file's: the offset of a fault is at OFFSET, its text at TEXT, the name
// at NAME, and a name that is longer than what is left lets the memory grow. (A
// length that a function returns is unsigned, and JavaScript reads it as
// signed.)
let proved, memory, room, written, OFFSET, TEXT, NAME;
let encoder, decoder, texts, typeOf, lengthOf;

/** Takes an instance of the module, unless there is one. */
function use({exports}) {
  if (proved !== undefined) {
    return;
  }
  OFFSET = exports.__heap_base.value;
  TEXT = OFFSET + OFFSET_SIZE;
  NAME = TEXT + TEXT_MAX;
  encoder = new TextEncoder();
  decoder = new TextDecoder("utf-8", {ignoreBOM: true});
  texts = new Map();
  // (what an array of another window is, too, and whatever a subclass says)
  const typed = Object.getPrototypeOf(Uint8Array.prototype);
  typeOf = Object.getOwnPropertyDescriptor(typed, Symbol.toStringTag).get;
  lengthOf = Object.getOwnPropertyDescriptor(typed, "length").get;
  proved = exports;
  viewMemory();
}

/** Makes views of the memory, which has another buffer after it grew. */
function viewMemory() {
  memory = new Uint8Array(proved.memory.buffer);
  written = new DataView(proved.memory.buffer);
  room = memory.subarray(NAME);
}

/** The bytes of the module. */
function binary() {
  if (wasm === null) {
    throw new Error("gix-validate/slim has no WebAssembly of its own");
  }
  // (Uint8Array.from takes three times as long, since it makes each character.)
  const text = atob(wasm);
  return new Uint8Array(text.length).map((_, at) => text.charCodeAt(at));
}

/** The error where the module can't be made. */
const unmade = (cause) => new Error(
    `gix-validate can't make its WebAssembly module here: ${cause}. ${
        wasm === null ?
            "Pass a WebAssembly.Module: await ready(module)." :
            "First await ready(), or ready(module) where bytes may not be compiled. A Content-Security-Policy needs 'wasm-unsafe-eval'."}`,
    {cause});

/** Makes the module, if no call before has made it. */
function make() {
  try {
    use(new WebAssembly.Instance(new WebAssembly.Module(binary())));
  } catch (cause) {
    throw unmade(cause);
  }
}

export async function ready(module) {
  if (proved !== undefined) {
    return;
  }
  try {
    const made = await WebAssembly.instantiate(module ?? binary());
    use(made.instance ?? made);
  } catch (cause) {
    throw unmade(cause);
  }
}

/** Makes room for so many bytes from NAME on. */
function reserve(length) {
  const missing = length - room.length;
  if (missing > 0) {
    proved.memory.grow(
        Math.ceil(missing / PAGE));  // a RangeError, if there is no such memory
    viewMemory();
  }
}

/**
 * Copies a name into the module's memory, and returns how many bytes it has.
 * A lone surrogate becomes U+FFFD.
 */
function put(name, what = "a name") {
  if (proved === undefined) {
    make();
  }
  if (typeof name === "string") {
    reserve(3 * name.length);
    return encoder.encodeInto(name, room).written;
  }
  if (typeOf.call(name) !== "Uint8Array") {
    throw new TypeError(`${what} has to be a string or a Uint8Array, not ${
        name === null ? "null" : typeof name}`);
  }
  const length = lengthOf.call(name);
  reserve(length);
  room.set(name);  // a TypeError, if its buffer is detached
  return length;
}

/** What is from one offset to another, as a string. */
const decoded = (from, to) => decoder.decode(room.subarray(from, to));

/** A text in quotes, on one line, with nothing that hides or reorders it. */
const quoted = (text) => PLAIN.test(text) ?
    `"${text}"` :
    JSON.stringify(text).replace(
        /(?! )[\p{C}\p{Z}]/gu,
        (found) => found.replace(
            /[^]/g,
            (unit) =>
                `\\u${unit.charCodeAt(0).toString(16).padStart(4, "0")}`));

/**
 * A message: a text, and the place in a name that it is about. That is the
 * character there, its index, and what is between the slashes around it.
 */
function placed(text, name, at, unit, index) {
  if (at === name.length) {
    return at === 0 ? text : `${text} (at the end)`;
  }
  const from = name.lastIndexOf("/", at - 1) + 1;
  const slash = name.indexOf("/", at), to = slash < 0 ? name.length : slash;
  const piece = name.slice(from, to);
  const isPiece = from < to && to - from < name.length && name[at] !== "/";
  if (isPiece &&
      PLAIN.test(name)) {  // (what follows does the same, but slower)
    return `${text} ("${name[at]}" at ${unit} ${index}, in "${piece}")`;
  }
  const character = quoted(String.fromCodePoint(name.codePointAt(at)));
  const within = isPiece ? `, in ${quoted(piece)}` : "";
  return `${text} (${character} at ${unit} ${index}${within})`;
}

/** Where a string has its first lone surrogate, or -1. */
const loneIn = (name, length) =>
    typeof name !== "string" || length === name.length ? -1 : name.search(LONE);

/**
 * The text of a fault of the name at NAME. It is the same for all names of the
 * kind, but that it may quote the byte of the fault, or the whole name.
 */
function textOf(number, kind, length, flags, offset) {
  const key = (kind * FAULTS.length + number) * 256 +
      (number === INVALID_BYTE ? room[offset] : 0);
  if (texts.has(key)) {
    return texts.get(key);
  }
  const size =
      proved.gix_validate_text_of(NAME, length, flags, kind, TEXT, TEXT_MAX);
  const text = decoder.decode(memory.subarray(TEXT, TEXT + size));
  return number === RESERVED ? text : texts.set(key, text).get(key);
}

/**
 * What is wrong with a name, which is at NAME, and where, which is at OFFSET.
 */
function explained(number, kind, name, length, flags) {
  const offset = written.getUint32(OFFSET, true);
  const text = textOf(number, kind, length, flags, offset),
        fault = FAULTS[number];
  if (typeof name !== "string") {
    const before = decoded(0, offset), shown = before + decoded(offset, length);
    const message = placed(text, shown, before.length, "byte", offset);
    return {fault, message, index: offset};
  }
  const index = length === name.length ? offset : decoded(0, offset).length;
  return {fault, message: placed(text, name, index, "index", index), index};
}

/** Checks a name of a kind. */
function check(kind, name, flags) {
  const length = put(name), index = loneIn(name, length);
  if (index >= 0) {
    const message = placed(LONE_TEXT, name, index, "index", index);
    return {fault: "LoneSurrogate", message, index};
  }
  const number =
      proved.gix_validate_fault_at(NAME, length, flags, kind, OFFSET);
  return number === 0 ? null : explained(number, kind, name, length, flags);
}

/** The flags of protections, of which all that aren't given are on. */
function flagsOf(protections) {
  if (protections === undefined) {
    return PROTECT_ALL;
  }
  if (typeof protections !== "object" || protections === null) {
    throw new TypeError("the protections have to be an object");
  }
  const flags = {...FLAGS};
  for (const [name, value] of Object.entries(protections)) {
    if (!Object.hasOwn(FLAGS, name) ||
        ![true, false, undefined].includes(value)) {
      throw new TypeError(
          `the protections are windows, hfs and ntfs, true or false: ${name}`);
    }
    if (value === false) {
      flags[name] = 0;
    }
  }
  return flags.windows | flags.hfs | flags.ntfs;
}

export function checkBranch(name) {
  return check(BRANCH, name, 0);
}

export function checkBranchRef(name) {
  return check(BRANCH_REF, name, 0);
}

export function checkTag(name) {
  return check(TAG, name, 0);
}

export function checkRef(name) {
  return check(REF, name, 0);
}

export function checkPartialRef(name) {
  return check(PARTIAL_REF, name, 0);
}

export function checkTagName(name) {
  return check(TAG_NAME, name, 0);
}

export function checkSafeRef(name, protections) {
  return check(SAFE_REF, name, flagsOf(protections));
}

export function checkPath(path, protections) {
  return check(PATH, path, flagsOf(protections));
}

export function checkSymlinkPath(path, protections) {
  return check(SYMLINK_PATH, path, flagsOf(protections));
}

export function checkComponent(name, protections) {
  return check(COMPONENT, name, flagsOf(protections));
}

export function checkSymlink(name, protections) {
  return check(SYMLINK, name, flagsOf(protections));
}

export function checkSubmodule(name, protections) {
  return check(SUBMODULE, name, flagsOf(protections));
}

export function isWindowsDevice(name) {
  const length = put(name);
  return proved.gix_validate_is_windows_device(NAME, length) !== 0;
}

/**
 * What a function makes of a name that isn't valid, or null if it makes
 * nothing. A lone surrogate counts as a space, which no name may have.
 */
function repaired(kind, name, call) {
  const isString = typeof name === "string";
  const length = put(isString ? name.replace(/\p{Surrogate}/gu, " ") : name);
  if (proved.gix_validate_fault_of(NAME, length, 0, kind) === 0) {
    return name;
  }
  const free = Math.max(1, length);
  reserve(length + free);
  const size = proved[call](NAME, length, NAME + length, free) >>> 0;
  if (size === 0) {
    return null;
  }
  return isString ? decoded(length, length + size) :
                    room.slice(length, length + size);
}

export function suggestBranch(name) {
  return repaired(BRANCH, name, "gix_validate_suggest");
}

export function sanitize(name) {
  return repaired(PARTIAL_REF, name, "gix_validate_sanitize");
}

/** The number of a kind. */
function numberOf(kind) {
  const number = KINDS.indexOf(kind);
  if (number < 0) {
    throw new TypeError(`a kind has to be one of ${KINDS.join(", ")}`);
  }
  return number;
}

/**
 * The number of each name in a buffer, which has at most as many as bytes. They
 * are in the module's memory, until the next call.
 */
function numbersOf(kind, flags, length, end) {
  reserve(2 * length);
  const count = proved.gix_validate_faults_of(
                    NAME, length, flags, kind, end, NAME + length, length) >>>
      0;
  return room.slice(length, length + count);
}

export function faultNumbers(buffer, kind, end = 10, protections) {
  const number = numberOf(kind);
  const flags = number < SAFE_REF ? 0 : flagsOf(protections);
  if (!Number.isInteger(end)) {
    throw new TypeError("the end of a name has to be the number of a byte");
  }
  if (end < 0 || end > 255) {
    throw new RangeError("the end of a name has to be from 0 to 255");
  }
  if (typeof buffer === "string") {
    throw new TypeError("a buffer of names has to be a Uint8Array, not string");
  }
  return numbersOf(number, flags, put(buffer, "a buffer of names"), end);
}

/**
 * Names of a list as one text in which NUL ends each, or null if one isn't a
 * string.
 */
function joined(names) {
  let text = "";
  for (const name of names) {
    if (typeof name !== "string") {
      return null;
    }
    text += `${name}\0`;
  }
  return text;
}

/**
 * The number of each name in a part of a list, which stays in the processor's
 * cache, or null if one isn't a string, or has NUL or a lone surrogate.
 */
function numbersOfPart(names, kind, flags) {
  const text = joined(names);
  if (text === null) {
    return null;
  }
  const length = put(text);
  const numbers =
      loneIn(text, length) < 0 ? numbersOf(kind, flags, length, 0) : null;
  return numbers?.length === names.length ? numbers : null;
}

export function checkAll(names, kind, protections) {
  const number = numberOf(kind);
  const flags = number < SAFE_REF ? 0 : flagsOf(protections);
  if (typeof names === "string") {
    throw new TypeError(
        "the names have to be an iterable of names, not one string");
  }
  const listed = [...names], found = new Array(listed.length).fill(null);
  for (let from = 0; from < listed.length; from += PART) {
    const part = listed.slice(from, from + PART);
    const numbers = numbersOfPart(part, number, flags);
    for (const [at, name] of part.entries()) {
      if (numbers?.[at] !== 0) {
        found[from + at] = check(number, name, flags);
      }
    }
  }
  return found;
}

export function version() {
  if (proved === undefined) {
    make();
  }
  const number = proved.gix_validate_version();
  return [
    Math.floor(number / 1000000), Math.floor(number / 1000) % 1000,
    number % 1000
  ].join(".");
}
