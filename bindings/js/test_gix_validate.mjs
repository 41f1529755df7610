// Tests of gix_validate.mjs, in Node and in a browser: rows, as tests/rows has
// them, and what no row says.
//
//     node test_gix_validate.mjs ROWS VERSION
//     node test_gix_validate.mjs -     replays rows from standard input
import * as gix from "./gix_validate.mjs";

// The check of each kind of name, by what rows and lists call the kind.
const KINDS = {
  "branch": ["branch", gix.checkBranch],
  "branch-ref": ["branchRef", gix.checkBranchRef],
  "tag": ["tag", gix.checkTag],
  "ref": ["ref", gix.checkRef],
  "partial": ["partialRef", gix.checkPartialRef],
  "tag-name": ["tagName", gix.checkTagName],
  "safe-ref": ["safeRef", gix.checkSafeRef],
  "path": ["path", gix.checkPath],
  "symlink-path": ["symlinkPath", gix.checkSymlinkPath],
  "component": ["component", gix.checkComponent],
  "symlink": ["symlink", gix.checkSymlink],
  "submodule": ["submodule", gix.checkSubmodule],
};
const CHECKS = Object.values(KINDS).map(([, check]) => check);
const PROTECTED = CHECKS.slice(6);
const NONE = {
  windows: false,
  hfs: false,
  ntfs: false
};
const utf8 = new TextDecoder("utf-8", {fatal: true, ignoreBOM: true});
const bytesIn = (text) => new TextEncoder().encode(text);
// What a message may not have, since it hides or reorders text, or ends a line.
const UNSEEN = /(?! )[\p{C}\p{Z}]/u;
const SURROGATE =
    "A name must be a well-formed string, without lone surrogates";
const BAD = "Reference name contains invalid byte:";
/**
 * A value as text, which tells null from undefined, and bytes from what only
 * has their numbers.
 */
const shown = (value) => JSON.stringify(
    value,
    (_, it) => it instanceof Uint8Array ? {bytes: Array.from(it)} :
        it === undefined                ? "undefined" :
                                          it);
let checked = 0;

function equal(found, wanted, where) {
  checked++;
  if (found !== wanted && shown(found) !== shown(wanted)) {
    throw new Error(`${where}: ${shown(found)}, not ${shown(wanted)}`);
  }
}

/** A call throws an error of this type. */
function refused(type, call, ...given) {
  try {
    call(...given);
  } catch (error) {
    equal(error instanceof type, true, `${error} instead of a ${type.name}`);
    return;
  }
  throw new Error(`${call.name} threw nothing for ${given.map(String)}`);
}

/** The bytes that a row quotes. */
function unquoted(text) {
  const characters = text.replace(
      /\\x(..)/g, (_, digits) => String.fromCharCode(parseInt(digits, 16)));
  return Uint8Array.from(characters, (character) => character.charCodeAt(0));
}

/** The bytes, and, if they are UTF-8, the string. */
function forms(bytes) {
  try {
    return [bytes, utf8.decode(bytes)];
  } catch {
    return [bytes];
  }
}

/**
 * Whether a row is of Windows' own rules, without those of NTFS. No option is
 * that, since `windows` includes NTFS, so these rows aren't replayed.
 */
const isWithoutNTFS = (row) => /^[\w-]+:(?=\w*w)[^n ]+ /.test(row);

/** The settings of a row. */
const protectionsOf = (letters) => ({
  windows: letters.includes("w"),
  hfs: letters.includes("h"),
  ntfs: letters.includes("n")
});

/** A byte that a name doesn't have. */
const endOf = (name) => {
  const bytes = typeof name === "string" ? bytesIn(name) : name;
  return Array.from({length: 256}, (_, at) => at)
      .find((byte) => !bytes.includes(byte));
};

/** What is checked by itself, in a list, and in a buffer has one result. */
function checkedIn(kind, name, protections, row) {
  const [listed, check] = KINDS[kind];
  const found = check(name, protections), end = endOf(name);
  equal(
      gix.checkAll([name, name, "a"], listed, protections).slice(0, 2),
      [found, found], row);
  if (end !== undefined) {
    const bytes = typeof name === "string" ? bytesIn(name) : name;
    equal(
        gix.faultNumbers(
            Uint8Array.of(...bytes, end, 65), listed, end, protections)[0],
        gix.FAULTS.indexOf(found?.fault ?? null), row);
  }
  return found;
}

/**
 * What a message says of the place: the character at the index, and the part
 * that has it, which is found here by going through all parts.
 */
function placeOf(name, index) {
  const text = typeof name === "string" ? name : String.fromCharCode(...name);
  if (index === text.length) {
    return text === "" ? "" : " (at the end)";
  }
  const parts = text.split("/");
  let from = 0;
  const [part] = parts.filter((it) => {
    const isIt = from <= index && index <= from + it.length;
    from += it.length + 1;
    return isIt;
  });
  const unit = typeof name === "string" ? "index" : "byte";
  const [character] = text.slice(index);
  const within = parts.length > 1 && part !== "" && character !== "/" ?
      `, in ${JSON.stringify(part)}` :
      "";
  return ` (${JSON.stringify(character)} at ${unit} ${index}${within})`;
}

function validated(kind, protections, name, answer, row) {
  const [, word, , offset, text] =
      /^(\w+):?(\w\w)?@?(\d+)? ?(.*)$/.exec(answer);
  const found = checkedIn(kind, name, protections, row);
  equal(found?.fault ?? "Ok", word, row);
  if (found === null) {
    return;
  }
  const {message, index} = found;
  equal(Object.keys(found), ["fault", "message", "index"], row);
  equal(UNSEEN.test(message), false, row);
  equal(message.startsWith(text), true, row);
  if (offset !== undefined) {
    const before = name.slice(0, index);
    equal(
        typeof name === "string" ? bytesIn(before).length : index,
        Number(offset), row);
  }
  const isPlain = (typeof name === "string" ? bytesIn(name) : name)
                      .every((byte) => 0x20 <= byte && byte < 0x7f);
  if (isPlain) {
    const place = placeOf(name, index);
    equal(message.endsWith(place), true, row);
    equal(text === "" || message === text + place, true, row);
  }
}

function manyValidated(kind, end, name, answer, row) {
  if (typeof name === "string") {
    return;
  }
  const numbers = Array.from(
      gix.faultNumbers(name, KINDS[kind][0], parseInt(end, 16), NONE));
  equal(
      [
        numbers.length, ...numbers.map((number) => gix.FAULTS[number] ?? "Ok")
      ].join(" "),
      answer, row);
}

/** What a call makes of a name, which it returns only if a check accepts it. */
function madeOf(call, check, name, answer, row) {
  const made = call(name);
  if (answer === "none") {
    equal(made, null, row);
    return;
  }
  const wanted = forms(unquoted(answer.slice(1, -1)));
  equal(made, wanted[typeof name === "string" ? 1 : 0], row);
  equal(made === name, check(name) === null, row);
  equal(check(made), null, row);
}

function replayed(row) {
  if (isWithoutNTFS(row)) {
    return;
  }
  const [, call, more, kind, quoted, answer] =
      /^([\w-]+)(?::(\w*))? (?:([\w-]+) )?"([^"]*)" (.*)$/.exec(row);
  for (const name of forms(unquoted(quoted))) {
    if (call === "device") {
      equal(gix.isWindowsDevice(name), answer === "yes", row);
    } else if (call === "sanitize") {
      madeOf(gix.sanitize, gix.checkPartialRef, name, answer, row);
    } else if (call === "suggest") {
      madeOf(gix.suggestBranch, gix.checkBranch, name, answer, row);
    } else if (call === "many") {
      manyValidated(kind, more, name, answer, row);
    } else {
      validated(call, protectionsOf(more ?? ""), name, answer, row);
    }
  }
}

class Lying extends Uint8Array {
  get length() {
    return 1000000;
  }
  get byteLength() {
    return 1;
  }
  get byteOffset() {
    return 7;
  }
  get[Symbol.toStringTag]() {
    return "Int8Array";
  }
  static get[Symbol.species]() {
    throw new Error("asked");
  }
}

/** What isn't a name. */
function wrongNames() {
  const gone = new Uint8Array(4).fill(97);
  structuredClone(gone.buffer, {transfer: [gone.buffer]});
  return [
    undefined,
    null,
    1,
    1n,
    true,
    Symbol("a"),
    {},
    [97],
    ["a"],
    new String("a"),
    new ArrayBuffer(1),
    new DataView(new ArrayBuffer(1)),
    new Int8Array(1),
    new Uint16Array(1),
    new Uint8ClampedArray(1),
    new BigInt64Array(1),
    {length: 1, 0: 97},
    () => "a",
    Object.create(Uint8Array.prototype),
    new Proxy(new Uint8Array(1), {}),
    gone,
  ];
}

/**
 * What isn't a name, a kind, a list of names, a buffer, an end of names or an
 * object of settings.
 */
function wrong() {
  const a = Uint8Array.of(97);
  const calls = [
    ...CHECKS, gix.suggestBranch, gix.sanitize, gix.isWindowsDevice,
    (name) => gix.faultNumbers(name, "tag"),
    (name) => gix.checkAll(["a", name], "tag")
  ];
  const kinds = [undefined, null, "", "Tag", "constructor", "__proto__", 1];
  const settings = [
    null, 0, 1, "windows", true, {simlink: true}, {windows: true, other: true},
    {ntfs: 1}, {hfs: null}
  ];
  const ends = [null, "\n", 1.5, NaN, 10n, [10]];
  for (const [call, ...given] of
           [...calls.flatMap(
                (call) => wrongNames().map((name) => [call, name])),
            ...kinds.flatMap(
                (kind) => [
                    [gix.faultNumbers, a, kind], [gix.checkAll, ["a"], kind]]),
            [gix.faultNumbers, "a", "tag"],
            ...[undefined, null, 1, "ab", {}].map(
                (listed) => [gix.checkAll, listed, "tag"]),
            ...ends.map((end) => [gix.faultNumbers, a, "tag", end]),
            ...settings.flatMap(
                (it) => [
                    [gix.checkAll, ["a"], "component", it],
                    [gix.faultNumbers, a, "path", 10, it],
                    ...PROTECTED.map((check) => [check, "a", it])]),
  ]) {
    refused(TypeError, call, ...given);
  }
  refused(RangeError, gix.faultNumbers, a, "tag", -1);
  refused(RangeError, gix.faultNumbers, a, "tag", 256);
}

/**
 * Parts of buffers, also as those of another window, buffers that are shared
 * or lie, and results that no later call changes.
 */
function buffers() {
  const lying = new Lying([72, 69, 65, 68]),
        shared = new Uint8Array(new SharedArrayBuffer(3)).fill(97);
  equal(gix.checkRef(lying), null, "a lying array");
  equal(
      gix.checkTag(new Lying([97, 32]))?.message, `${BAD} " " (" " at byte 1)`,
      "a lying array");
  const results = [
    gix.sanitize(new Lying([97, 32])),
    gix.suggestBranch(new Lying([97, 32, 98])),
    gix.faultNumbers(new Lying([97, 10, 32]), "tag"), gix.sanitize("later")
  ];
  equal(
      results,
      [
        new Uint8Array([97, 45]), new Uint8Array([97, 45, 98]),
        new Uint8Array([0, 1]), "later"
      ],
      "a lying array, and calls after it");
  equal(
      gix.checkTag(Object.setPrototypeOf(
          new Uint8Array([32, 97, 98, 0]).subarray(1, 3), null)),
      null, "a part");
  equal(gix.checkTag(shared), null, "a shared buffer");
  shared[1] = 32;
  equal(gix.checkTag(shared)?.index, 1, "a shared buffer");
}

/** By default all protections are on. */
function protections() {
  const refusals = [
    [gix.checkPath, "src/nul", "WindowsReservedName"],
    [gix.checkSymlinkPath, "src/.gitmodules", "SymlinkedGitModules"],
    [gix.checkComponent, ".g\u200cit", "DotGitDir"],
    [gix.checkSymlink, "gitmod~1", "SymlinkedGitModules"],
    [gix.checkSubmodule, "a/..\u200c/b", "Disguised"],
    [gix.checkSafeRef, "refs/heads/aux", "WindowsReservedName"],
  ];
  for (const [check, name, fault] of refusals) {
    for (const none of [undefined, {}, {ntfs: undefined}]) {
      equal(check(name, none)?.fault, fault, `${name} by default`);
    }
  }
  equal(
      [{...NONE, windows: true}, {...NONE, hfs: true}].map(
          (only) => gix.checkAll(["aux.c", "git~1", "a"], "path", only)
                        .map((it) => it?.fault)),
      [["WindowsReservedName", "DotGitDir", undefined], Array(3).fill()],
      "Windows includes NTFS");
  equal(
      gix.checkAll(["src", "aux.c", ".git"], "component")
          .map((it) => it?.fault),
      [undefined, "WindowsReservedName", "DotGitDir"], "a list by default");
  equal(
      gix.checkAll(["aux.c", ".git"], "path", {windows: false})
          .map((it) => it?.index),
      [undefined, 0], "a list without Windows");
  equal(
      Array.from(gix.faultNumbers(bytesIn("aux.c\n"), "path", 10, NONE)), [0],
      "a buffer without Windows");
}

function lists() {
  const names = [
    "refs/heads/main", "main", "a b", "a\0b", new Uint8Array([72, 69, 65, 68]),
    "", "a\ud800"
  ];
  const wanted = [
    null, "SomeLowercase", "InvalidByte", "InvalidByte", null, "Empty",
    "LoneSurrogate"
  ];
  const faultsOf = (found) => found.map((it) => it?.fault ?? null);
  for (let from = 0; from < names.length; from++) {
    const found = gix.checkAll(names.slice(from), "ref");
    equal(faultsOf(found), wanted.slice(from), "a list");
    equal(found, names.slice(from).map((it) => gix.checkRef(it)), "a list");
  }
  const long = Array.from({length: 1000}, (_, at) => `a${at}`);
  const places = [
    [0, " "], [255, "a\0b"], [256, ""], [511, "a.lock"], [700, "é ü"],
    [800, "\udfff"], [999, "@{"]
  ];
  places.forEach(([at, name]) => long[at] = name);
  long[600] = new Uint8Array([32]);
  const faults = Array(1000).fill(null);
  [0, 255, 600, 700].forEach((at) => faults[at] = "InvalidByte");
  [faults[256], faults[511], faults[800], faults[999]] =
      ["Empty", "LockFileSuffix", "LoneSurrogate", "ReflogPortion"];
  equal(faultsOf(gix.checkAll(long, "tag")), faults, "a list in parts");
  equal(
      faultsOf(gix.checkAll(new Set(["a", "a", "b.lock"]).values(), "tag")),
      [null, "LockFileSuffix"], "any iterable");
  equal(gix.checkAll([], "tag"), [], "no name");
  equal(["a", "b"].map(gix.checkTag), [null, null], "what map passes besides");
  equal(Object.isFrozen(gix.FAULTS), true, "FAULTS");
}

/** Messages and indices, as a person would write them. */
function places() {
  const slashes = "Reference name cannot contain repeated slashes";
  const dots = "Reference name cannot contain repeated dots";
  const part =
      "A path must not be empty, start or end with a slash, or have two in a row";
  const cases = [
    [gix.checkBranch, "", 0, "Reference name cannot be empty"],
    [gix.checkBranch, "a b", 1, `${BAD} " " (" " at index 1)`],
    [gix.checkBranch, "x/a b/y", 3, `${BAD} " " (" " at index 3, in "a b")`],
    [gix.checkBranch, "a//b", 2, `${slashes} ("/" at index 2)`],
    [gix.checkBranch, "a..b", 2, `${dots} ("." at index 2)`],
    [gix.checkPath, "a/", 2, `${part} (at the end)`],
    [gix.checkPath, "a//b", 2, `${part} ("/" at index 2)`],
    [gix.checkBranch, "ü..x", 2, `${dots} ("." at index 2)`],
    [gix.checkBranch, "🎉/漢..x", 5, `${dots} ("." at index 5, in "漢..x")`],
    [gix.checkBranch, "é\n", 1, `${BAD} "\\n" ("\\n" at index 1)`],
    [gix.checkBranch, bytesIn("é\n"), 2, `${BAD} "\\n" ("\\n" at byte 2)`],
    [
      gix.checkBranch, "\u202ea\u009b/\u2028\u{e0001}\\\"", 7,
      `${BAD} "\\\\" ("\\\\" at index 7, in "\\u2028\\udb40\\udc01\\\\\\"")`
    ],
    [
      gix.checkRef, "É", 0,
      "Standalone references must be all uppercased, like 'HEAD' (\"É\" at index 0)"
    ],
    [
      gix.checkRef, "A😀", 1,
      "Standalone references must be all uppercased, like 'HEAD' (\"😀\" at index 1)"
    ],
    [
      gix.checkRef, Uint8Array.of(65, 0xff), 1,
      "Standalone references must be all uppercased, like 'HEAD' (\"\ufffd\" at byte 1)"
    ],
  ];
  for (const [check, name, index, message] of cases) {
    const found = check(name);
    equal([found?.message, found?.index], [message, index], message);
  }
}

/** A lone surrogate is a fault of any name, and comes before all others. */
function surrogates() {
  const halves = [
    ["\ud800", 0, '"\\ud800" at index 0'],
    ["a\udc00 ", 1, '"\\udc00" at index 1'],
    ["\udc00\ud800", 0, '"\\udc00" at index 0'],
    ["é/b\ud83d", 3, '"\\ud83d" at index 3, in "b\\ud83d"'],
    [
      `${"a".repeat(70000)}/\udfff`, 70001,
      '"\\udfff" at index 70001, in "\\udfff"'
    ],
  ];
  for (const [name, index, place] of halves) {
    for (const check of CHECKS) {
      equal(
          check(name),
          {fault: "LoneSurrogate", message: `${SURROGATE} (${place})`, index},
          place);
    }
  }
  equal(gix.suggestBranch("a\ud800b"), "a-b", "a suggestion");
  equal(gix.sanitize("a\ud800"), "a-", "a repair");
  equal(gix.suggestBranch("\udfff"), null, "no suggestion");
  equal(gix.isWindowsDevice("nul\ud800"), false, "no device");
}

function strings() {
  ["Grüße", "🎉", "\ufeffa", "a\u2028b", "\u0085"].forEach(
      (name) => equal(gix.checkTag(name), null, name));
  equal(gix.sanitize("é..🎉.lock"), "é.🎉", "a repair");
  equal(gix.suggestBranch("é: 🎉!.lock"), "é-🎉!", "a suggestion");
  for (const call of [gix.sanitize, gix.suggestBranch]) {
    equal(call("\ufeffa b"), "\ufeffa-b", "a mark of byte order stays");
  }
}

function long() {
  for (const length of [63000, 65400, 65536, 1 << 20, (1 << 20) + 1, 5000001]) {
    const name = "a".repeat(length), bytes = new Uint8Array(length).fill(10);
    // (first, when the memory hasn't grown for names of this length)
    equal(
        gix.sanitize(bytes).every((byte) => byte === 45), true,
        `${length} bytes`);
    equal(
        gix.faultNumbers(bytes, "tag")
            .every((number) => gix.FAULTS[number] === "Empty"),
        true, `${length} names`);
    equal(gix.checkTag(name), null, `${length} bytes`);
    equal(
        [`${name} `, `${"漢".repeat(length)} `].map(
            (it) => gix.checkTag(it)?.index),
        [length, length], `${length} bytes`);
    equal(
        [gix.sanitize(`${name}..b//`), gix.suggestBranch(`${name}..b//`)],
        [`${name}.b`, `${name}.b`], `${length} bytes`);
    equal(
        gix.checkAll([name, `${name} `], "tag").map((it) => it?.index),
        [undefined, length], `${length} bytes`);
  }
}

/**
 * The tests by what they say. (That of long names is early: memory that grew
 * stays.)
 */
function testsOf(text, version) {
  const rows = text.split("\n").filter((line) => /^[^#]/.test(line));
  const tests = {
    "each row holds": () => {
      rows.forEach(replayed);
      const seen = rows.filter((row) => !isWithoutNTFS(row)).length;
      equal(seen > 800, true, `${seen} rows are replayed`);
    },
    "names of any length are checked": long,
    "what isn't a name, a kind, a list or a setting is refused": wrong,
    "parts of buffers, shared ones and ones that lie are names": buffers,
    "by default all protections are on": protections,
    "each name of a list has the result of its own check": lists,
    "a message shows the character at the index, and its piece": places,
    "a lone surrogate is a fault, and throws nothing": surrogates,
    "strings are checked and repaired as UTF-8": strings,
    "the version is that of the functions": () =>
        equal(gix.version(), version, "the version"),
  };
  const each = Object.entries(tests).map(
      ([name, test]) => [name, () => {
        const before = checked;
        test();
        equal(checked > before, true, "something was compared");
      }]);
  return [rows.length, each];
}

/** Runs all tests in a browser, and says how much they compared. */
export function run(text, version) {
  const [count, tests] = testsOf(text, version);
  tests.forEach(([, test]) => test());
  return `${count} rows, ${checked} comparisons`;
}

/**
 * Replays rows from standard input, and prints for each what is wrong, or ok.
 */
async function replayInput() {
  const {createInterface} = await import("node:readline");
  for await (const row of createInterface({input: process.stdin})) {
    try {
      replayed(row);
      console.log("ok");
    } catch (error) {
      console.log(String(error));
    }
  }
}

if (typeof process !== "undefined") {
  const [, , file, version] = process.argv;
  if (file === "-") {
    await replayInput();
  } else {
    const {readFileSync} = await import("node:fs");
    const {test} = await import("node:test");
    const [, tests] = testsOf(readFileSync(file, "ascii"), version);
    tests.forEach(([name, check]) => test(name, check));
  }
}
