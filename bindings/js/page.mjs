// What docs/names.html does. `make_page` puts it into the page.
import {checkBranch, checkPath, checkRef, checkSubmodule, checkSymlinkPath, checkTag, sanitize, suggestBranch, version} from "./gix_validate.mjs";

// What is marked from the index on, if it is more than a character.
const PART = /^[^/]*/, ALL = /^.*/su;
const MARKED = {
  LockFileSuffix: /^\.lock/,
  ParentComponent: /^\.\./,
  WindowsReservedName: /^[^.:/]*/,
  WindowsIllegalCharacter: /^(?:[. ]+(?=\/|$)|.)/su,
  EmptyPart: /^/,
  Relative: PART,
  DotGitDir: PART,
  SymlinkedGitModules: PART,
  Disguised: PART,
  Reserved: ALL,
  OutsideRefs: ALL,
};
// The faults of two characters, whose index is that of the second.
const PAIRS = ["RepeatedSlash", "RepeatedDot", "ReflogPortion"];
const CHECKS = {
  branch: checkBranch,
  tag: checkTag,
  reference: checkRef,
  submodule: checkSubmodule,
  path: (name, protections) =>
      (part("symlink").checked ? checkSymlinkPath : checkPath)(
          name, protections),
};
// (A tag is valid if a branch of the same name is.)
const REPAIRS = {
  branch: suggestBranch,
  tag: suggestBranch,
  reference: sanitize
};
const PROTECTIONS = {
  "Windows, NTFS": {windows: true, hfs: false},
  "HFS+": {windows: false, hfs: true, ntfs: false},
  none: {windows: false, hfs: false, ntfs: false},
};
const part = (id) => document.getElementById(id);
const hex = (code, digits) => code.toString(16).padStart(digits, "0");
const typed = () => part("name").value.replace(
    /\\x([01][0-9a-f]|7f)/gi,
    (_, digits) => String.fromCharCode(parseInt(digits, 16)));
const escaped = (text) =>
    text.replace(/[\x00-\x1f\x7f]/g, (it) => `\\x${hex(it.charCodeAt(0), 2)}`);
const printable = (text) => text.replace(
    /[\x00-\x1f\x7f-\x9f\p{Cf}\p{Zl}\p{Zp}]/gu,
    (it) => it < "\x80" ? `\\x${hex(it.charCodeAt(0), 2)}` :
                          `\\u{${hex(it.codePointAt(0), 4)}}`);

/** The name in three parts, the second of which is marked. */
function marked(name, {fault, index}) {
  const from = PAIRS.includes(fault) ? index - 1 : index;
  const [mark] = (MARKED[fault] ?? /^./su).exec(name.slice(index)) ?? [""];
  const to = index + mark.length;
  return [name.slice(0, from), name.slice(from, to), name.slice(to)];
}

function noteOf(kind, name, invalid, hasRepair) {
  return invalid && !hasRepair ?
      "It can't be repaired: choose another name." :
      invalid ?
      "This is only the first fault. The repair removes all of them." :
      kind === "path" ?
      "No protection refuses it. A file system may refuse more, such as a long name." :
      kind === "branch" ? `Git stores it as refs/heads/${printable(name)}.` :
      kind === "tag" ? `Git stores it as refs/tags/${printable(name)}.` :
                       "";
}

function showProtections(name) {
  part("protections")
      .tBodies[0]
      .replaceChildren(
          ...Object.entries(PROTECTIONS).map(([system, protections]) => {
            const invalid = CHECKS.path(name, protections);
            const row = document.createElement("tr");
            row.append(
                Object.assign(
                    document.createElement("th"),
                    {scope: "row", textContent: system}),
                Object.assign(document.createElement("td"), {
                  className: invalid ? "bad" : "good",
                  textContent: invalid ? `✗ Refused: ${invalid.message}` :
                                         "✓ Accepted"
                }));
            return row;
          }));
}

function show() {
  const kind = part("form").elements.kind.value, name = typed(),
        isPath = kind === "path";
  part("link").hidden = !isPath;
  part("protections").hidden = !isPath || name === "";
  showProtections(name);
  if (name === "") {
    part("result").className = "";
    part("verdict").textContent = "Type a name.";
    ["shown", "why", "where", "note"].forEach(
        (id) => part(id).replaceChildren());
    part("repair").hidden = true;
    part("name").removeAttribute("aria-invalid");
    return;
  }
  const invalid = CHECKS[kind](name);
  const repaired = invalid && REPAIRS[kind] ? REPAIRS[kind](name) : null;
  const hasRepair = repaired !== null && CHECKS[kind](repaired) === null;
  part("result").className = invalid ? "bad" : "good";
  part("name").setAttribute("aria-invalid", String(invalid !== null));
  part("verdict").textContent = invalid ? "✗ Not valid" : "✓ Valid";
  const [before, wrong, after] =
      invalid ? marked(name, invalid) : [name, "", ""];
  const mark = Object.assign(
      document.createElement("mark"), {textContent: printable(wrong)});
  part("shown").replaceChildren(
      printable(before), ...(invalid ? [mark] : []), printable(after));
  part("why").textContent = invalid?.message ?? "";
  part("where").textContent =
      invalid ? `${invalid.fault}. The first character has index 0.` : "";
  part("repair").hidden = !hasRepair;
  part("repaired").textContent = repaired;
  part("note").textContent = noteOf(kind, name, invalid, hasRepair);
}

/**
 * Puts in what is pasted or dropped, also the ends of lines, which a field
 * loses.
 */
function insert(event, transfer) {
  const text = transfer.getData("text/plain");
  if (escaped(text) === text) {
    return;
  }
  event.preventDefault();
  const field = part("name");
  field.setRangeText(
      escaped(text), field.selectionStart, field.selectionEnd, "end");
  show();
}

part("form").addEventListener("input", show);
part("name").addEventListener(
    "paste", (event) => insert(event, event.clipboardData));
part("name").addEventListener(
    "drop", (event) => insert(event, event.dataTransfer));
part("form").addEventListener("submit", (event) => event.preventDefault());
part("use").addEventListener("click", () => {
  part("name").value = part("repaired").textContent;
  part("name").focus();
  show();
});
part("version").textContent = `Version ${version()}.`;
show();
