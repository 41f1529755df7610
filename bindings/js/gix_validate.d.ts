/**
 * Checks of the names that Git uses, and repairs of bad names.
 *
 *     import { checkBranch, suggestBranch } from "gix-validate";
 *     checkBranch("main");                 // null: it is valid
 *     checkBranch("my branch");
 *     // { fault: "InvalidByte", index: 2, message:
 *     //   'Reference name contains invalid byte: " " (" " at index 2)' }
 *     suggestBranch("Fix: it's done..");   // "Fix-it's-done"
 *
 * The first call compiles 45 kB of WebAssembly. Where that isn't allowed, each
 * call throws an Error: see `ready`.
 *
 * A name is a string, which is checked as UTF-8, or bytes of any values.
 * Anything else is a TypeError, as is an array whose buffer was transferred.
 * Memory for long names is kept. If there is none, the error is a RangeError.
 */

/** A string, or bytes (a Buffer, too). */
export type Name = string|Uint8Array;

/** Why a name is invalid, in the spelling of the Rust crate. */
// clang-format off
export type NumberedFault =
    | "InvalidByte" | "StartsWithSlash" | "RepeatedSlash" | "RepeatedDot" | "LockFileSuffix" | "ReflogPortion" | "Asterisk"
    | "StartsWithDot" | "EndsWithDot" | "EndsWithSlash" | "Empty" | "SomeLowercase" | "Reserved" | "ParentComponent"
    | "PathSeparator" | "WindowsPathPrefix" | "WindowsReservedName" | "WindowsIllegalCharacter" | "DotGitDir"
    | "SymlinkedGitModules" | "Relative" | "StartsWithDash" | "EmptyPart" | "Nul" | "OutsideRefs" | "Disguised";

// clang-format on

/**
 * The faults by their numbers, which are stable, and those of gix_validate.h.
 * That of a valid name, 0, is null.
 */
export const FAULTS: readonly(NumberedFault | null)[];

/**
 * Why a name is invalid. A string may also have a lone surrogate, for which
 * there is no UTF-8.
 */
export type Fault = NumberedFault|"LoneSurrogate";

/** What is wrong with a name. */
export interface InvalidName {
  /** The first fault, in the order of docs/RULES.md. */
  readonly fault: Fault;
  /**
   * A line in English for people: what is wrong, and where. It shows the
   * character at the index, and, if the name has a slash, what is between the
   * slashes around it, in quotes and with escapes.
   */
  readonly message: string;
  /**
   * Where the fault is, from 0 on: the index into the string, in UTF-16 code
   * units, or into the array of bytes. It is the length of the name if
   * something is missing at the end, as in the path "a/".
   */
  readonly index: number;
}

/**
 * The systems against whose special names a path is protected. By default all
 * are true, which is right for a server, and whenever it isn't known where a
 * name will be checked out.
 */
export interface Protections {
  /**
   * What Windows reads differently from Git, such as "a\b" and "c:", devices,
   * such as "NUL", and what it forbids, such as a dot at the end. This includes
   * `ntfs`, because Windows has NTFS.
   */
  readonly windows?: boolean|undefined;
  /** What HFS+ of macOS takes for ".git", such as ".g\u200cit". */
  readonly hfs?: boolean|undefined;
  /**
   * What NTFS takes for ".git", such as "git~1". `false` makes a difference
   * only if `windows` is false, too.
   */
  readonly ntfs?: boolean|undefined;
}

/** A kind of name whose check has protections. */
export type ProtectedKind =
    "safeRef"|"path"|"symlinkPath"|"component"|"symlink"|"submodule";

/** A kind of name: that of `checkBranch` is "branch", and so on. */
export type Kind =
    "branch"|"branchRef"|"tag"|"ref"|"partialRef"|"tagName"|ProtectedKind;

/**
 * Checks a branch name as people write it, such as "main".
 *
 * With "refs/heads/" before it, a valid name is the full name of a branch. It
 * doesn't start with a dash, and isn't "HEAD".
 *
 * @param name A string, or bytes of UTF-8.
 * @returns null if the name is valid, and otherwise what is wrong with it.
 * @throws {TypeError} It isn't a string or a Uint8Array.
 * @example
 * checkBranch("feature/login");          // null
 * checkBranch("feature//login")?.index;  // 8
 */
export function checkBranch(name: Name): InvalidName|null;

/**
 * Checks the full name of a branch, such as "refs/heads/main".
 *
 * This is `checkRef`, except that "refs/heads/HEAD" is invalid. So "HEAD" and
 * "refs/tags/v1" are valid, and "main" isn't.
 *
 * @param name A string, or bytes of UTF-8.
 * @returns null if the name is valid, and otherwise what is wrong with it.
 * @throws {TypeError} It isn't a string or a Uint8Array.
 * @example
 * checkBranchRef("refs/heads/main");  // null
 * checkBranchRef("main")?.fault;      // "SomeLowercase"
 */
export function checkBranchRef(name: Name): InvalidName|null;

/**
 * Checks a tag name as people write it, such as "v1.2.3".
 *
 * With "refs/tags/" before it, a valid name is the full name of a tag. It
 * doesn't start with a dash, and isn't "HEAD".
 *
 * @param name A string, or bytes of UTF-8.
 * @returns null if the name is valid, and otherwise what is wrong with it.
 * @throws {TypeError} It isn't a string or a Uint8Array.
 * @example
 * checkTag("v1.2.3");         // null
 * checkTag("v1..2")?.index;   // 3, the second dot
 */
export function checkTag(name: Name): InvalidName|null;

/**
 * Checks the full name of a reference, such as "refs/remotes/origin/main".
 *
 * Without a slash, a valid name has no character but A to Z and _, such as
 * "HEAD".
 *
 * @param name A string, or bytes of UTF-8.
 * @returns null if the name is valid, and otherwise what is wrong with it.
 * @throws {TypeError} It isn't a string or a Uint8Array.
 * @example
 * checkRef("refs/heads/main");  // null
 * checkRef("HEAD");             // null
 * checkRef("main")?.index;      // 0
 */
export function checkRef(name: Name): InvalidName|null;

/**
 * Checks a part of a reference name, such as "main" or "origin/main".
 *
 * The rules are those of `checkRef`, except that a name without a slash may
 * have any letters.
 *
 * @param name A string, or bytes of UTF-8.
 * @returns null if the name is valid, and otherwise what is wrong with it.
 * @throws {TypeError} It isn't a string or a Uint8Array.
 * @example
 * checkPartialRef("origin/main");  // null
 */
export function checkPartialRef(name: Name): InvalidName|null;

/**
 * Checks a tag name by the rule of the Rust crate gix-validate.
 *
 * This is `checkPartialRef`, except that "@" is valid. Unlike `checkTag` it
 * accepts "-d" and "HEAD", which Git doesn't accept for a tag.
 *
 * @param name A string, or bytes of UTF-8.
 * @returns null if the name is valid, and otherwise what is wrong with it.
 * @throws {TypeError} It isn't a string or a Uint8Array.
 * @example
 * checkTagName("v1.2.3");  // null
 */
export function checkTagName(name: Name): InvalidName|null;

/**
 * Checks the full name of a reference that a program uses as the path of a
 * file in a repository.
 *
 * A valid name is below "refs/", or has no character but A to Z and _. Each
 * piece of it is a valid component under the protections.
 *
 * @param name A string, or bytes of UTF-8.
 * @param protections The systems to protect against, by default all.
 * @returns null if the name is valid, and otherwise what is wrong with it.
 * @throws {TypeError} It isn't a string or a Uint8Array.
 * @example
 * checkSafeRef("refs/heads/main");          // null
 * checkSafeRef("hooks/post-update")?.fault; // "OutsideRefs"
 * checkSafeRef("refs/heads/aux")?.fault;    // "WindowsReservedName"
 */
export function checkSafeRef(
    name: Name, protections?: Protections): InvalidName|null;

/**
 * Checks a path in a tree, such as "src/main.rs".
 *
 * Each part of it between slashes has to be a valid component. A slash at the
 * end is a fault, so cut off that of a directory in an archive, such as "dir/".
 * A path with a NUL is invalid under all protections.
 *
 * @param path A string, or bytes of UTF-8.
 * @param protections The systems to protect against, by default all.
 * @returns null if the path is valid, and otherwise what is wrong with it.
 * @throws {TypeError} It isn't a string or a Uint8Array.
 * @example
 * checkPath("src/main.rs");                     // null
 * checkPath("src/.GIT ")?.index;                // 4
 * checkPath("src/aux.c", { windows: false });   // null
 */
export function checkPath(path: Name, protections?: Protections): InvalidName|
    null;

/**
 * Checks the path of a symbolic link, as `checkPath` does, but the last part
 * may not be ".gitmodules" either, or what a system takes for it.
 *
 * @param path A string, or bytes of UTF-8.
 * @param protections The systems to protect against, by default all.
 * @returns null if the path is valid, and otherwise what is wrong with it.
 * @throws {TypeError} It isn't a string or a Uint8Array.
 * @example
 * checkSymlinkPath("src/.gitmodules")?.fault;  // "SymlinkedGitModules"
 */
export function checkSymlinkPath(
    path: Name, protections?: Protections): InvalidName|null;

/**
 * Checks one component of a path: the name of a file or directory.
 *
 * @param name A string, or bytes of UTF-8.
 * @param protections The systems to protect against, by default all.
 * @returns null if the name is valid, and otherwise what is wrong with it.
 * @throws {TypeError} It isn't a string or a Uint8Array.
 * @example
 * checkComponent("main.rs");         // null
 * checkComponent("git~1")?.fault;    // "DotGitDir"
 */
export function checkComponent(
    name: Name, protections?: Protections): InvalidName|null;

/**
 * Checks the name of a symbolic link, as `checkComponent` does, but it may not
 * be ".gitmodules" either, or what a system takes for it.
 *
 * @param name A string, or bytes of UTF-8.
 * @param protections The systems to protect against, by default all.
 * @returns null if the name is valid, and otherwise what is wrong with it.
 * @throws {TypeError} It isn't a string or a Uint8Array.
 * @example
 * checkSymlink(".gitmodules")?.fault;  // "SymlinkedGitModules"
 */
export function checkSymlink(
    name: Name, protections?: Protections): InvalidName|null;

/**
 * Checks a submodule name, such as "vendor/package".
 *
 * No part of a valid name is "..", or is taken for it by a system to protect
 * against. Under protections each part is also a valid component.
 *
 * @param name A string, or bytes of UTF-8.
 * @param protections The systems to protect against, by default all.
 * @returns null if the name is valid, and otherwise what is wrong with it.
 * @throws {TypeError} It isn't a string or a Uint8Array.
 * @example
 * checkSubmodule("vendor/package");    // null
 * checkSubmodule("vendor/..")?.index;  // 7
 */
export function checkSubmodule(
    name: Name, protections?: Protections): InvalidName|null;

/**
 * Checks many names in less time than a call for each takes.
 *
 * @param names Any iterable of names, but not one string.
 * @param kind The kind of all names.
 * @param protections The systems to protect against, by default all.
 * @returns For each name, in order, what its own check returns.
 * @throws {TypeError} The names aren't an iterable, one of them isn't a name,
 *     or there is no such kind.
 * @example
 * checkAll(["main", "a b"], "branch");  // [null, { fault: "InvalidByte", .. }]
 */
export function checkAll(
    names: Iterable<Name>, kind: Kind): (InvalidName|null)[];
export function checkAll(
    names: Iterable<Name>, kind: ProtectedKind,
    protections?: Protections): (InvalidName|null)[];

/**
 * Checks the names in a buffer, such as the output of a command.
 *
 * @param buffer Bytes, in which `end` ends each name. What follows the last
 *     such byte is a name too, unless it is empty.
 * @param kind The kind of all names.
 * @param end The byte that ends a name, by default 10, a newline.
 * @param protections The systems to protect against, by default all.
 * @returns A byte for each name, in order: 0, or the number of its fault in
 *     `FAULTS`.
 * @throws {TypeError} The buffer isn't a Uint8Array, there is no such kind, or
 *     the end isn't an integer.
 * @throws {RangeError} The end isn't from 0 to 255.
 * @example
 * const buffer = new TextEncoder().encode("main\na b\n");
 * faultNumbers(buffer, "branch");  // Uint8Array [ 0, 1 ]
 */
export function faultNumbers(
    buffer: Uint8Array, kind: Kind, end?: number): Uint8Array;
export function faultNumbers(
    buffer: Uint8Array, kind: ProtectedKind, end?: number,
    protections?: Protections): Uint8Array;

/**
 * Suggests a branch name for one that a person typed.
 *
 * A valid name is returned unchanged. In any other name, what a branch name may
 * not have becomes a dash or is removed.
 *
 * @param name A string, or bytes of UTF-8.
 * @returns A name that `checkBranch` accepts, not longer than the name, or null
 *     if too little is left, as of "..." and "HEAD".
 * @throws {TypeError} It isn't a string or a Uint8Array.
 * @example
 * suggestBranch("Fix: it's done..");  // "Fix-it's-done"
 * suggestBranch("...");               // null
 */
export function suggestBranch(name: string): string|null;
export function suggestBranch(name: Uint8Array): Uint8Array|null;
export function suggestBranch(name: Name): Name|null;

/**
 * Repairs a part of a reference name, by the rule of the Rust crate
 * gix-validate. For a branch, use `suggestBranch`.
 *
 * A valid name is returned unchanged.
 *
 * @param name A string, or bytes of UTF-8.
 * @returns A name that `checkPartialRef` accepts.
 * @throws {TypeError} It isn't a string or a Uint8Array.
 * @example
 * sanitize("refs//heads/../x.lock");  // "refs/heads/-/x"
 */
export function sanitize(name: string): string;
export function sanitize(name: Uint8Array): Uint8Array;
export function sanitize(name: Name): Name;

/**
 * Whether Windows takes the name for a device, such as "NUL" and "com1.txt".
 *
 * @param name A string, or bytes of UTF-8.
 * @throws {TypeError} It isn't a string or a Uint8Array.
 */
export function isWindowsDevice(name: Name): boolean;

/**
 * Makes the WebAssembly module, unless it is there already. It isn't needed
 * where WebAssembly may be compiled at once, as in Node and in workers.
 *
 * @param module A WebAssembly.Module of gix_validate.wasm, for platforms that
 *     don't compile bytes at run time. By default the package's own bytes are
 *     compiled without blocking.
 * @returns A promise. When it is fulfilled, all functions can be called.
 * @throws {Error} (rejects) The module can't be made here. Its `cause` says
 *     why.
 * @example
 * import module from "gix-validate/gix_validate.wasm";  // Cloudflare Workers
 * await ready(module);
 */
export function ready(module?: object): Promise<void>;

/** The version of the functions, such as "3.0.0". */
export function version(): string;
