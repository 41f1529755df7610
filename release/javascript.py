"""Makes what npm's package has besides JavaScript's module: the module for `require`, which
can't read `export`, the module without its functions, and the functions as a file.

    python3 -m release.javascript DIRECTORY

writes them next to gix_validate.mjs and gix_validate_wasm.mjs in a directory.
"""

import base64
import re
import sys
from pathlib import Path

IMPORT = 'import wasm from "./gix_validate_wasm.mjs";\n'
EXPORT = re.compile(r"(?m)^export (?=(?:const|(?:async )?function) (\w+))")
NOTE = "// Made by release/javascript.py of gix_validate.mjs."


def parts(directory):
    """The module, without its import and as what is before and after it, and the text
    that it imports."""
    module = (directory / "gix_validate.mjs").read_text("utf-8")
    functions = (directory / "gix_validate_wasm.mjs").read_text("utf-8")
    # (Each text is there once, or this fails.)
    first, rest = module.split(IMPORT)
    note, functions = functions.split("export default")
    return first, rest, f"{note}const wasm ={functions}"


def script(directory):
    """The module as statements without imports and exports, and the names that it
    exports."""
    first, rest, functions = parts(directory)
    return f"{first}{functions}{EXPORT.sub('', rest)}", EXPORT.findall(rest)


def write(directory):
    statements, names = script(directory)
    exports = f"module.exports = {{\n  {', '.join(names)}\n}};"
    first, rest, functions = parts(directory)
    texts = {
        "cjs": f'"use strict";\n{NOTE}\n{statements}{exports}\n',
        "d.cts": (directory / "gix_validate.d.ts").read_text("utf-8"),
    }
    for end, text in texts.items():
        (directory / f"gix_validate.{end}").write_text(text, "utf-8")
    slim = f"{NOTE}\n{first}const wasm = null;\n{rest}"
    (directory / "gix_validate_slim.mjs").write_text(slim, "utf-8")
    _, text, _ = functions.split("`")
    (directory / "gix_validate.wasm").write_bytes(base64.b64decode(text))


if __name__ == "__main__":
    write(Path(sys.argv[1]))
