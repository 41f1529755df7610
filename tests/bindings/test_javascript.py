"""The functions in WebAssembly, and JavaScript's module, in Node and in a browser."""
import json
import re
import shutil

import pytest

from release import javascript

from .tools import BINDINGS, ROWS, VERSION, WASM, declared, need, output, rows, run

JS = BINDINGS / "js"
TESTS = JS / "test_gix_validate.mjs"
RUN = """
    const [module, ...given] = arguments;
    return import(module).then((it) => it.run(...given));
"""
NAMES_OF = """
    const { imports, exports } = WebAssembly.Module;
    const bytes = require("fs").readFileSync(process.argv[1]);
    const module = new WebAssembly.Module(bytes);
    JSON.stringify([imports, exports].map((of) => of(module).map((it) => it.name)))
"""
# A program that is bundled, in both ways to name the package.
BUNDLED = {
    "import": 'import { sanitize } from "gix-validate"; console.log(sanitize("a..b"))',
    "require": 'console.log(require("gix-validate").sanitize("a..b"))',
}
# What begins the functions in WebAssembly, as text.
FUNCTIONS = "AGFzbQEAAAA"
# A program, and what its bundle has and doesn't have.
SHAKEN = {
    'import { FAULTS } from "gix-validate"; console.log(FAULTS)': (
        ["RepeatedDot"],
        ["function", FUNCTIONS],
    ),
    'import { checkBranch } from "gix-validate"; console.log(checkBranch("a"))': (
        ["gix_validate_fault_at", FUNCTIONS],
        [
            "gix_validate_s",
            "gix_validate_fault_of",
            "gix_validate_faults_of",
            "symlinkPath",
            "windows",
        ],
    ),
    'import { checkBranch } from "gix-validate/slim"; console.log(checkBranch("a"))': (
        ["gix_validate_fault_at"],
        ["gix_validate_suggest", FUNCTIONS],
    ),
}
# Runs what `require` loads where no bytes may be compiled to WebAssembly, as on Cloudflare's
# Workers, and prints what calls throw there. Then it uses a module that is compiled already.
FORBIDDEN = """
    const { readFileSync } = require("fs");
    const module_ = { exports: {} };
    const given = { module: module_, TextEncoder, TextDecoder, atob };
    const forbidden = { contextCodeGeneration: { wasm: false } };
    require("vm").runInNewContext(readFileSync(process.argv[1]), given, forbidden);
    const { checkBranch, ready, version } = module_.exports;
    const say = (error) => console.log(error.name, error.message, error.cause.name);
    for (const call of [() => checkBranch("main"), version]) {
        try { call(); } catch (error) { say(error); }
    }
    ready().catch(say)
        .then(() => ready(new WebAssembly.Module(readFileSync(process.argv[2]))))
        .then(() => console.log(checkBranch("a b").index));
"""
UNMADE = re.compile(
    r"Error gix-validate can't make its WebAssembly module here: CompileError: .* First "
    r"await ready\(\), or ready\(module\) .* CompileError"
)
# A program without functions of its own.
SLIM = """
    import { readFileSync } from "node:fs";
    import { createRequire } from "node:module";
    import { checkBranch, ready } from "gix-validate/slim";
    try { checkBranch("main"); } catch (error) { console.log(error.message); }
    await ready().catch((error) => console.log(error.message));
    const file = createRequire(import.meta.url).resolve("gix-validate/gix_validate.wasm");
    await ready(new WebAssembly.Module(readFileSync(file)));
    console.log(checkBranch("a b").index);
"""
# A program that may compile only without blocking, as on the main thread of an old Chrome.
WITHOUT_BLOCKING = """
    import { checkBranch, ready } from "gix-validate";
    WebAssembly.Module = class { constructor() { throw new RangeError("4 kB at most"); } };
    try { checkBranch("main"); } catch (error) { console.log(error.cause.name); }
    await Promise.all([ready(), ready()]);
    console.log(checkBranch("a b").index);
"""
# A page with a policy, which shows what a program in it says.
PAGE = """
    <!doctype html>
    <meta http-equiv="Content-Security-Policy" content="script-src 'unsafe-inline' {policy}">
    <script>
    const gix = (() => {{ {statements} return {{ {names} }}; }})();
    document.title = "loaded";
    try {{ document.title += gix.checkBranch("a b").index; }} catch (error) {{ document.title += error; }}
    </script>
"""
TSC = (
    "--strict --noEmit --noUncheckedIndexedAccess --exactOptionalPropertyTypes".split()
)
# How tsc looks for the types, and the files that import them.
RESOLUTIONS = [
    ("node", "commonjs", "types.ts"),
    ("node16", "node16", "types.mts types.cts"),
    ("nodenext", "nodenext", "types.mts"),
]


@pytest.fixture
def project(tmp_path):
    """A directory that has the package, as npm would install it."""
    need(WASM)
    package = tmp_path / "node_modules/gix-validate"
    package.mkdir(parents=True)
    for name in "package.json", "gix_validate.d.ts", "gix_validate.mjs":
        shutil.copy(JS / name, package)
    shutil.copy(JS / "gix_validate_wasm.mjs", package)
    javascript.write(package)
    return tmp_path


def bundled(project, program, *options):
    """The bundle that esbuild makes of a program, without a warning."""
    need("esbuild")
    (project / "main.js").write_text(program)
    words = ["--bundle", "--target=es2020", "--log-level=warning", *options]
    built = run("esbuild", "main.js", *words, cwd=project)
    assert built.stderr == ""
    return built.stdout


def test_webassembly_imports_nothing_and_exports_what_the_header_declares():
    need("node", WASM)
    imports, exports = json.loads(output("node", "-p", NAMES_OF, WASM))
    assert imports == []
    assert sorted(exports) == sorted(["__heap_base", "memory", *declared()])


def test_the_module_has_the_functions_that_are_built(project):
    packed = project / "node_modules/gix-validate/gix_validate.wasm"
    assert packed.read_bytes() == WASM.read_bytes()


def test_the_module_passes_its_own_tests_in_node():
    need("node", WASM)
    said = output("node", TESTS, ROWS, VERSION)
    assert re.findall(r"(?m)^# (?:tests|pass|fail|skipped) .*", said) == [
        "# tests 10",
        "# pass 10",
        "# fail 0",
        "# skipped 0",
    ]


def test_what_is_required_passes_the_tests_of_the_module(project):
    need("node")
    text = TESTS.read_text("utf-8")
    line = 'import * as gix from "./gix_validate.mjs";'
    assert text.count(line) == 1
    required = 'import gix from "./node_modules/gix-validate/gix_validate.cjs";'
    (project / "test.mjs").write_text(text.replace(line, required), "utf-8")
    assert "\n# pass 10\n" in output("node", project / "test.mjs", ROWS, VERSION)


def test_require_returns_what_import_does(project):
    need("node")
    (project / "main.mjs").write_text(
        'import { createRequire } from "node:module";'
        'import * as imported from "gix-validate"; import * as slim from "gix-validate/slim";'
        'const required = createRequire(import.meta.url)("gix-validate");'
        "const names = [imported, slim, required].map((it) => Object.keys(it).sort().join());"
        "console.log(new Set(names).size, names[0].length > 200);"
    )
    assert output("node", "main.mjs", cwd=project) == "1 true\n"


def test_a_program_can_read_the_version_in_the_package(project):
    need("node")
    required = 'require("gix-validate/package.json").version.replace("-dev", "")'
    assert output("node", "-p", required, cwd=project) == f"{VERSION}\n"


def test_a_program_runs_where_nothing_may_be_compiled_and_calls_say_why_they_fail(
    project,
):
    need("node")
    package = project / "node_modules/gix-validate"
    files = package / "gix_validate.cjs", package / "gix_validate.wasm"
    *unmade, found = output("node", "-e", FORBIDDEN, *files).splitlines()
    assert [bool(UNMADE.fullmatch(it)) for it in unmade] == [True] * 3
    assert found == "1"


def test_the_slim_module_uses_the_webassembly_that_it_is_given(project):
    need("node")
    (project / "main.mjs").write_text(SLIM)
    *unmade, found = output("node", "main.mjs", cwd=project).splitlines()
    lacks = "Error: gix-validate/slim has no WebAssembly of its own. "
    advice = "Pass a WebAssembly.Module: await ready(module)."
    assert [it.partition(lacks)[2] for it in unmade] == [advice, advice]
    assert found == "1"


def test_a_program_that_waits_for_the_module_needs_no_compiling_that_blocks(project):
    need("node")
    (project / "main.mjs").write_text(WITHOUT_BLOCKING)
    assert output("node", "main.mjs", cwd=project) == "RangeError\n1\n"


@pytest.mark.parametrize("form", ["iife", "cjs", "esm"])
@pytest.mark.parametrize("way", BUNDLED)
def test_a_bundle_of_esbuild_runs(project, way, form):
    need("node")
    bundle = "bundle.mjs" if form == "esm" else "bundle.cjs"
    bundled(project, BUNDLED[way], f"--format={form}", f"--outfile={bundle}")
    assert output("node", bundle, cwd=project) == "a.b\n"


@pytest.mark.parametrize("program", SHAKEN)
def test_a_bundle_has_only_what_the_program_calls(project, program):
    bundle = bundled(project, program, "--format=esm")
    there, gone = SHAKEN[program]
    assert [it for it in there if it not in bundle] == []
    assert [it for it in gone if it in bundle] == []


@pytest.mark.parametrize("resolution, module, sources", RESOLUTIONS)
def test_the_types_are_those_that_callers_need(project, resolution, module, sources):
    need("tsc")
    for source in sources.split():
        shutil.copy(JS / "types.ts", project / source)
    options = f"--target es2022 --module {module} --moduleResolution {resolution}"
    words = [*options.split(), *sources.split()]
    assert output("tsc", *TSC, *words, cwd=project) == ""


@pytest.mark.parametrize("resolution", ["node", "node16"])
def test_the_types_of_the_slim_module_need_no_types_of_a_browser(project, resolution):
    need("tsc")
    (project / "types.mts").write_text(
        'import { ready } from "gix-validate/slim"; export const made: Promise<void> = ready({});'
    )
    module = "es2022" if resolution == "node" else resolution
    options = f"--target es2022 --lib es2022 --module {module} --moduleResolution {resolution}"
    assert output("tsc", *TSC, *options.split(), "types.mts", cwd=project) == ""


def test_the_module_passes_its_own_tests_in_chromium(chromium):
    need(WASM)
    # (A page from the disk may import modules from there, and share buffers.)
    flags = ["--allow-file-access-from-files", "--enable-features=SharedArrayBuffer"]
    with chromium(*flags) as browser:
        browser.set_script_timeout(240)
        browser.get(ROWS.as_uri())
        given = TESTS.as_uri(), ROWS.read_text("ascii"), VERSION
        said = browser.execute_script(RUN, *given)
    assert re.fullmatch(rf"{len(rows())} rows, \d{{4,}} comparisons", said)


def test_a_page_whose_policy_forbids_webassembly_loads_and_a_call_says_so(
    chromium, tmp_path
):
    need(WASM)
    statements, names = javascript.script(JS)
    said = []
    with chromium() as browser:
        for policy in "", "'wasm-unsafe-eval'":
            page = PAGE.format(
                policy=policy, statements=statements, names=", ".join(names)
            )
            (tmp_path / "page.html").write_text(page, "utf-8")
            browser.get((tmp_path / "page.html").as_uri())
            said.append(browser.title)
    assert said[0].startswith("loadedError: gix-validate can't make its WebAssembly")
    assert said[0].endswith("A Content-Security-Policy needs 'wasm-unsafe-eval'.")
    assert said[1] == "loaded1"
