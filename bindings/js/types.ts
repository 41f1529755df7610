// What tsc has to accept, and, after @ts-expect-error, to refuse.
import {checkAll, checkBranch, checkPath, faultNumbers, FAULTS, ready, sanitize, suggestBranch, version} from "gix-validate";

import type {Fault, InvalidName, Kind, Name, NumberedFault, Protections} from "gix-validate";

const invalid: InvalidName|null = checkBranch("v1" as Name);
if (invalid !== null) {
  const fault: Fault = invalid.fault;
  const at: number = invalid.index;
  console.log(fault === "LoneSurrogate", at, invalid.message.length);
}
const protections: Protections = {
  windows: false,
  ntfs: undefined
};
const found: readonly(InvalidName | null)[] =
    checkAll(["a", new Uint8Array(1)], "component", protections);
const each: (InvalidName|null)[] = ["a"].map(checkBranch);
const numbers: Uint8Array =
    faultNumbers(new Uint8Array(1), "path", 10, protections);
const fault: NumberedFault|null|undefined = FAULTS[numbers[0] ?? 0];
const suggested: string|null = suggestBranch("a..b");
const bytes: Uint8Array|null = suggestBranch(new Uint8Array(1));
const repaired: string = sanitize("a..b");
const made: Promise<void> = ready();
console.log(
    found, each, fault, suggested, bytes, repaired, made, version().length,
    checkAll(new Set(["a"]), "branch" as Kind), checkPath("nul", {})?.index);
ready(new WebAssembly.Module(new Uint8Array(1)));

// @ts-expect-error: not a name
checkBranch(1);
// @ts-expect-error: perhaps there is no suggestion
suggestBranch("a..b").length;
// @ts-expect-error: no such setting
checkPath("a", {simlink: true});
// @ts-expect-error: no such kind
checkAll(["a"], "Tag");
// @ts-expect-error: a buffer is bytes
faultNumbers("a", "branch");
// @ts-expect-error: a branch has no protections
checkAll(["a"], "branch", protections);
// @ts-expect-error: a branch has no protections
checkBranch("a", protections);
// @ts-expect-error: a branch has no protections
faultNumbers(numbers, "branch", 10, protections);
if (invalid !== null) {
  // @ts-expect-error: not for writing
  invalid.index = 1;
}
