// languages.mjs PASSES BRANCHES PATHS: the calls of languages.go, in
// JavaScript.
import {readFileSync} from "node:fs";

import {checkBranch, checkComponent, checkPath} from "../bindings/js/gix_validate.mjs";

const [times, ...files] = process.argv.slice(2);
const [branches, paths] =
    files.map((it) => readFileSync(it, "latin1").trimEnd().split("\n"));
const passes = [
  () => branches.every((branch) => branch.length > 0),
  () => branches.every((branch) => checkBranch(branch) === null),
  () => paths.every((path) => checkPath(path) === null),
  () => paths.every(
      (path) => path.split("/").every((part) => checkComponent(part) === null)),
];
for (const mark of [() => {}, () => process.kill(process.pid, 0)]) {
  for (const pass of passes) {
    mark();
    for (let n = 0; n < times; n++) {
      if (!pass()) {
        throw new Error("a name was refused");
      }
    }
  }
  mark();
}
