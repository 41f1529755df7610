"""What MkDocs does otherwise than usual with the pages of the repository (mkdocs.yml).

- The site has pages of all folders, not only of docs/, each at its own path.
- A link to a source leads to what docs/PUBLIC_API.md has of it; a link to another file
  that is no page becomes its text.
- Headings have the anchors that Git hosts give them.
- A site that is read from a disk can be searched: docs/search.js says how.
- The site of a release has the pages of release/references.py, too. SITE_REFERENCES
  names their folder.
"""

import os
import posixpath
import re
import sys
from pathlib import Path

from mkdocs.structure.files import File

ROOT = Path(__file__).resolve().parent.parent
# What else the pages show or link to.
SHOWN = ("bench/*.svg", "bench/figures.txt", "docs/*.css", "docs/*.html", "docs/*.png")
SHOWN += ("docs/pictures/*.svg", "docs/search.js")
PUBLIC_API = "docs/PUBLIC_API.md"
CHECKER = "docs/names.html"
# A link, or code, in which nothing is a link.
TOKEN = re.compile(
    r"(?<!!)\[(?P<text>(?:`[^`]*`|[^][`])*)\]\((?P<to>[^)\s]+)\)"
    r"|(?ms:^ *```.*?^ *```$)|`[^`\n]+`"
)

if str(ROOT) not in sys.path:
    sys.path.append(str(ROOT))

from release import references  # noqa: E402 (found by the above)
from scripts.checks.check_quotes import anchors, pages, slug  # noqa: E402

REFERENCES = os.environ.get("SITE_REFERENCES")


def on_config(config):
    config["mdx_configs"].setdefault("toc", {})["slugify"] = lambda text, _: slug(text)
    if not (ROOT / CHECKER).exists():
        print(f"{CHECKER} is not built, so the site lacks it: bindings/build makes it")
        for part in (of for it in config["nav"] for of in it.values()):
            part[:] = [it for it in part if CHECKER not in it.values()]
    if REFERENCES:
        [part] = (it["Reference"] for it in config["nav"] if "Reference" in it)
        part += references.navigation(Path(REFERENCES))


def on_files(files, config):
    docs = Path(config["docs_dir"])
    for file in [it for it in files if docs in Path(it.abs_src_path).parents]:
        files.remove(file)
    shown = (path for pattern in SHOWN for path in ROOT.glob(pattern))
    for path in [*pages(ROOT), *sorted(shown)]:
        name = path.relative_to(ROOT).as_posix()
        files.append(File(name, str(ROOT), config["site_dir"], False))
    for path in sorted(Path(REFERENCES).rglob("*")) if REFERENCES else []:
        if path.is_file():
            name = path.relative_to(REFERENCES).as_posix()
            files.append(File(name, REFERENCES, config["site_dir"], False))
    return files


def on_page_markdown(markdown, page, files, **_):
    folder = posixpath.dirname(page.file.src_uri)
    if folder.startswith(references.PLACE):
        return markdown
    public = anchors(ROOT / PUBLIC_API)

    def kept(token):
        path = (token["to"] or "").partition("#")[0]
        to = posixpath.normpath(posixpath.join(folder, path))
        if not path or re.match(r"https?:|mailto:", path) or to in files.src_uris:
            return token[0]
        if slug(to) in public:
            path = posixpath.relpath(PUBLIC_API, folder)
            return f"[{token['text']}]({path}#{slug(to)})"
        return token["text"]

    return TOKEN.sub(kept, markdown)


def on_post_page(output, page, **_):
    script = posixpath.relpath("docs/search.js", posixpath.dirname(page.url) or ".")
    before = re.search(r'<script src="[^"]*/bundle\.', output).start()
    return f'{output[:before]}<script src="{script}"></script>\n{output[before:]}'


def on_post_build(config):
    index = Path(config["site_dir"], "search/search_index.json")
    text = index.read_text("utf-8")
    index.with_suffix(".js").write_text(f"searchIndex({text});\n", "utf-8")
