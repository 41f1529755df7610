// javascript.mjs FULL BRANCHES PATHS: nanoseconds a name in the best pass. Each
// file has a name on each line. Of valid full names of references: by a call
// for each, by one for a list, by one for a buffer, and by a regular expression
// of the same rule. Then, each on a line, of short names of branches, of paths,
// and of paths by a call for each part.
import {readFileSync} from "node:fs";

import {checkAll, checkBranch, checkComponent, checkPath, checkRef, faultNumbers} from "../bindings/js/gix_validate.mjs";

// What JavaScript's Git clients do. (It refuses `a./b`, which Git accepts, and
// accepts `main`.)
const BAD = /(^|[/.])([/.]|$)|^@$|@{|[\x00-\x20\x7f~^:?*[\\]|\.lock(\/|$)/;

const [buffer, ...others] = process.argv.slice(2).map((it) => readFileSync(it));
const [names, branches, paths] = [buffer, ...others].map(
    (it) => it.toString("latin1").trimEnd().split("\n"));
const passes = [
  () => names.every((name) => checkRef(name) === null),
  () => checkAll(names, "ref").every((found) => found === null),
  () => faultNumbers(buffer, "ref").every((number) => number === 0),
  () => names.every((name) => !BAD.test(name)),
  () => branches.every((name) => checkBranch(name) === null),
  () => paths.every((path) => checkPath(path) === null),
  () => paths.every(
      (path) => path.split("/").every((part) => checkComponent(part) === null)),
];
const best = passes.map(() => Infinity);
for (let round = 0; round < 300; round++) {
  for (const [at, pass] of passes.entries()) {
    const from = process.hrtime.bigint();
    const accepted = pass();
    best[at] = Math.min(
        best[at], Number(process.hrtime.bigint() - from) / names.length);
    if (!accepted) {
      throw new Error("a name was refused");
    }
  }
}
const [each, listed, buffered, expression, ...written] =
    best.map((it) => it.toFixed(it < 100 ? 1 : 0));
console.log(
    `Node ${process.versions.node}: ${each} ns a name, ${listed} in a list, ${
        buffered} in a buffer; ${expression} by a regular expression`);
console.log(written.join("\n"));
