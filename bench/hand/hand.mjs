// hand.mjs CALL PASSES FILE: what hand.c measures, in JavaScript.
import {readFileSync} from "node:fs";

import {checkRef} from "../../bindings/js/gix_validate.mjs";

const BAD = /[\x00-\x20\x7f:?*[\\^~]|\.\.|@\{/;

/** What is wrong with a name, with a message like that of the module. */
function wrong(name, why, index) {
  const start = name.lastIndexOf("/", index - 1) + 1;
  const piece = JSON.stringify(name.slice(start).split("/", 1)[0]);
  const character = JSON.stringify(name[index] ?? "");
  const message = `${why} (${character} at index ${index}, in ${piece})`;
  return {fault: why, message, index};
}

function pieceByHand(name, start, end) {
  if (start === end) {
    return wrong(name, "an empty piece", start);
  }
  if (name[start] === ".") {
    return wrong(name, "a dot at the start", start);
  }
  if (name.endsWith(".lock", end)) {
    return wrong(name, ".lock at the end", end - 5);
  }
  return null;
}

function refByHand(name) {
  const bad = name.search(BAD);
  if (bad >= 0) {
    return wrong(name, "an invalid character", bad);
  }
  let start = 0;
  for (let end; (end = name.indexOf("/", start)) >= 0; start = end + 1) {
    const found = pieceByHand(name, start, end);
    if (found !== null) {
      return found;
    }
  }
  const found = pieceByHand(name, start, name.length);
  if (found !== null) {
    return found;
  }
  if (name.endsWith(".")) {
    return wrong(name, "a dot at the end", name.length - 1);
  }
  return start === 0 && !/^[A-Z_]*$/.test(name) ? wrong(name, "no slash", 0) :
                                                  null;
}

/** The nanoseconds of a call in the best pass. */
function best(names, passes, call) {
  let least = Infinity;
  for (let pass = 0; pass < passes; pass++) {
    const start = process.hrtime.bigint();
    const valid = names.filter((name) => call(name) === null).length;
    const taken = Number(process.hrtime.bigint() - start) / names.length;
    least = Math.min(least, taken);
    if (valid !== 0 && valid !== names.length) {
      throw new Error("a name was judged wrongly");
    }
  }
  return least.toFixed(1);
}

const [call, passes, file] = process.argv.slice(2);
const names = readFileSync(file, "latin1").trimEnd().split("\n");
// (The object that says what is wrong always has the index.)
console.log(
    best(names, Number(passes), call === "hand" ? refByHand : checkRef));
