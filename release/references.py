"""The pages of the site that tools make: the manuals, and the functions of each language.

mandoc makes those of the programs, the hook and C from the manuals, cargo doc those of Rust, go
doc that of Go, mkdocstrings that of Python from a list of the names; those of C++ and
JavaScript are declarations. The manuals and the code of the Rust crate are built, so they are those of a
release, and only its site has these pages: release/dist names their folder to MkDocs in
SITE_REFERENCES, and release/site_hook.py adds them. All tools are Debian's.
"""

import re
import shutil
import subprocess
import tempfile
from pathlib import Path

from scripts.sources import Wrong, read

ROOT = Path(__file__).resolve().parent.parent
# The folder of the site in which they are.
PLACE = "reference"
PROGRAMS = "programs"
PYTHON = ROOT / "bindings/python/gix_validate.py"
# The pages of languages, as the navigation names them.
LANGUAGES = {
    "C": "c.md",
    "C++": "cpp.md",
    "Rust": "rust/git_names/index.html",
    "Python": "python.md",
    "JavaScript": "javascript.md",
    "Go": "go.md",
}
# Debian's crates, of which bstr is an older one, and gix-error is none.
# Fonts, which readers have, their licences, and what cargo has left.
OF_RUSTDOC = ("*.woff2", "*LICENSE*", "COPYRIGHT.txt", ".lock", ".stamp")
FONT = r'@font-face\{[^}]*\}|<link rel="preload" as="font"[^>]*>'


def run(*command, cwd=ROOT):
    """What a tool of Debian prints, which has to succeed. It sees no setting of the caller,
    and leaves nothing."""
    with tempfile.TemporaryDirectory() as home:
        environment = {"PATH": "/usr/bin:/bin", "HOME": home, "LC_ALL": "C.UTF-8"}
        try:
            ran = subprocess.run(
                command, cwd=cwd, env=environment, capture_output=True, text=True
            )
        except FileNotFoundError as error:
            raise Wrong(f"the site needs Debian's {command[0]}: {error}") from error
    if ran.returncode:
        raise Wrong(f"{' '.join(map(str, command))}: {ran.stderr}")
    return ran.stdout


def manual(file):
    """A manual as HTML, without its lines at the top and the bottom. Its headings are below
    that of the page, and its examples look like others."""
    html = run("mandoc", "-T", "html", "-O", "fragment", file)
    html = re.sub(r'(?s)<table class="(?:head|foot)">.*?</table>\n', "", html)
    html = html.replace("<pre>", "<pre><code>").replace("</pre>", "</code></pre>")
    return re.sub(r"(</?)h1\b", r"\1h2", html)


def functions_of_python():
    """What mkdocstrings replaces by the signature and the text of each name: functions
    first, then classes."""
    public = re.search(r"(?s)__all__ = \[(.*?)\]", read(PYTHON))[1]
    names = sorted(re.findall(r'"(\w+)"', public), key=lambda it: it[0].isupper())
    return "".join(f"::: gix_validate.{it}\n\n" for it in names)


def write_rust(crate, to):
    """Documents the Rust crate of a release."""
    with tempfile.TemporaryDirectory() as room:
        copy = Path(room, "crate")
        shutil.copytree(crate, copy)
        run("cargo", "doc", "--quiet", "--offline", "--no-deps", cwd=copy)
        made = copy / "target/doc"
        shutil.copytree(made, to, ignore=shutil.ignore_patterns(*OF_RUSTDOC))
    for file in [to / "rustdoc.css", *to.glob("**/*.html")]:
        text = file.read_text("utf-8")
        file.write_text(re.sub(FONT, "", text), "utf-8")


def write(release, folder):
    """Writes the pages of an unpacked release into a folder of the site's sources."""
    place = folder / PLACE
    (place / PROGRAMS).mkdir(parents=True)
    manuals = release / "share/man"
    texts = {"c.md": ("Functions in C", manual(manuals / "man3/gix_validate.3"))}
    for file in sorted(manuals.glob("man[17]/*")):
        texts[f"{PROGRAMS}/{file.stem}.md"] = file.stem, manual(file)
    texts["python.md"] = "Functions in Python", functions_of_python()
    declared = read(ROOT / "bindings/js/gix_validate.d.ts")
    declared = re.sub("// clang-format .*\n", "", declared)
    code = f"```typescript\n{declared}```\n"
    texts["javascript.md"] = "Declarations of JavaScript", code
    header = read(ROOT / "bindings/cpp/gix_validate.hpp")
    texts["cpp.md"] = "Declarations of C++", f"```cpp\n{header}```\n"
    package = run("go", "doc", "-all", cwd=ROOT / "bindings/go")
    texts["go.md"] = "Functions in Go", f"```text\n{package}```\n"
    for name, (title, text) in texts.items():
        (place / name).write_text(f"# {title}\n\n{text}", "utf-8")
    write_rust(release / "rust/git-names", place / "rust")


def navigation(folder):
    """The part of the site's navigation that leads to what `write` has written."""
    programs = sorted((folder / PLACE / PROGRAMS).iterdir())
    return [
        {"Programs": [{it.stem: f"{PLACE}/{PROGRAMS}/{it.name}"} for it in programs]},
        {
            "Functions by language": [
                {name: f"{PLACE}/{page}"} for name, page in LANGUAGES.items()
            ]
        },
    ]
