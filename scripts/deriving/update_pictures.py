"""Draws docs/pictures/*.svg: most from the .dot files beside them, by Debian's graphviz, and
the grid of what refuses which name from the tables of docs/COMPARISON.md.

The first line of a .dot, a comment, is the title of the picture, and the comment after an
empty one says in words what it shows, for those who can't see it. Each .svg names the
sha256 of what it was drawn from, which --check compares: fonts, and so the bytes of the
.svg, differ between machines. So --check needs no graphviz.
"""

import re
import subprocess
from hashlib import sha256
from html import escape
from pathlib import Path

from scripts.sources import Wrong, read

FONT = "Helvetica,Arial,sans-serif"
STYLE = """
    text { fill: #1f2328; font-family: Helvetica, Arial, sans-serif }
    .graph > polygon { fill: none; stroke: none }
    .cluster > polygon { fill: none; stroke: #848b95; stroke-dasharray: 4 3 }
    .node > *, .edge > path { stroke: #525a64 }
    .node > text, .edge > text { stroke: none }
    .edge > polygon { fill: #525a64; stroke: #525a64 }
    .good > path { stroke: #12692f; stroke-width: 2 }
    .bad > path { stroke: #a4161a; stroke-width: 2 }
    .taken > path { stroke-width: 3 }
    @media (prefers-color-scheme: dark) {
        text { fill: #e6e9ed }
        .node > *, .edge > path { stroke: #a9b1ba }
        .edge > polygon { fill: #a9b1ba; stroke: #a9b1ba }
        .good > path { stroke: #6fd08c }
        .bad > path { stroke: #ff9a94 }
    }
"""
HEAD = re.compile(r"// (.*)\n//\n((?:// .*\n)+)")
SIZE = re.compile(r'<svg width="(\d+)pt" height="(\d+)pt"\n viewBox="(.*?)" .*?>')


def words(dot, path):
    """The title of a picture, and what it shows."""
    head = HEAD.match(dot)
    if not head:
        raise Wrong(f"{path} does not begin with a title and what it shows")
    return head[1], " ".join(head[2].replace("// ", "").split())


def digest(dot):
    """What a picture is drawn from."""
    return sha256((STYLE + dot).encode()).hexdigest()


def drawn(dot, path):
    """The picture as SVG."""
    title, description = words(dot, path)
    fonts = (f"-{kind}fontname={FONT}" for kind in "GNE")
    try:
        svg = subprocess.run(
            ["dot", "-Tsvg", *fonts], input=dot, capture_output=True, text=True
        )
    except FileNotFoundError as error:
        raise Wrong(f"the pictures need Debian's graphviz: {error}") from error
    if svg.returncode or svg.stderr:
        raise Wrong(f"{path}: {svg.stderr}")
    size = SIZE.search(svg.stdout)
    # (The titles of nodes and edges are names of the .dot, which nobody wants to hear.)
    body = re.sub(r"<title>.*</title>\n|<!--(?s:.*?)-->\n", "", svg.stdout)
    return (
        f"<!-- drawn from {digest(dot)} by scripts/dev update-pictures -->\n"
        '<svg xmlns="http://www.w3.org/2000/svg" role="img" '
        f'aria-labelledby="title desc" width="{size[1]}" height="{size[2]}" '
        f'viewBox="{size[3]}">\n'
        f'<title id="title">{escape(title)}</title>\n'
        f'<desc id="desc">{escape(description)}</desc>\n'
        f"<style>{STYLE}</style>\n{body[SIZE.search(body).end() + 1 :]}"
    )


# The grid of what refuses which name, by the tables of this page.
COMPARISON = "docs/COMPARISON.md"
COVERAGE = "docs/pictures/coverage.svg"
LEFT, TOP, WIDTH, HEIGHT = 190, 46, 120, 20
# Its parts, by the marks of the tables on that page.
GROUPS = {
    "components": "Names in a tree",
    "references": "Reference names",
    "submodules": "Submodule names",
}
GRID_STYLE = """
    text { fill: #1f2328; font: 12px Helvetica, Arial, sans-serif }
    .group { font-weight: bold }
    .refused { fill: #12692f } .accepted { fill: none; stroke: #a4161a }
    @media (prefers-color-scheme: dark) {
        text { fill: #e6e9ed }
        .refused { fill: #6fd08c } .accepted { stroke: #ff9a94 }
    }
"""


def compared():
    """The columns of the tables of names, and the rows, each a name and whether a column
    refuses it. (A table without a column has no result there.) The row before those of a
    table has its heading instead."""
    columns, rows = [], []
    for group, part in re.findall(
        rf"<!-- ({'|'.join(GROUPS)}) -->\n((?s:.*?))<!-- end -->", read(COMPARISON)
    ):
        rows.append((GROUPS[group], None))
        head, _, *body = [
            [cell.strip().strip("`") for cell in line.split(" | ")]
            for line in part.splitlines()
            if " | " in line or line.startswith("---")
        ]
        columns += [it for it in head[2:] if it not in columns]
        rows += [
            (
                row[0].replace("`", ""),
                {it: cell != "accepted" for it, cell in zip(head[2:], row[2:])},
            )
            for row in body
        ]
    return columns, rows


def coverage():
    """The grid as SVG: a full square for a name that is refused, an empty one for one that
    gets through, and nothing where a column wasn't asked."""
    columns, rows = compared()
    width, height = LEFT + WIDTH * len(columns), TOP + HEIGHT * len(rows) + 8
    lines = []
    for x, column in enumerate(columns):
        middle = LEFT + WIDTH * x + WIDTH // 2
        lines.append(
            f'<text x="{middle}" y="30" text-anchor="middle">{escape(column)}</text>'
        )
    for y, (name, results) in enumerate(rows):
        top = TOP + HEIGHT * y
        kind = "name" if results else "group"
        lines.append(
            f'<text class="{kind}" x="{LEFT - 12}" y="{top + 12}" text-anchor="end">{escape(name)}</text>'
        )
        for x, column in enumerate(columns):
            if column in (results or {}):
                kind = "refused" if results[column] else "accepted"
                left = LEFT + WIDTH * x + WIDTH // 2 - 6
                lines.append(
                    f'<rect class="{kind}" x="{left}" y="{top + 2}" width="12" height="12"/>'
                )
    checked = [results for _, results in rows if results]
    counts = ", ".join(
        f"{it} {sum(results.get(it, False) for results in checked)} of {sum(it in results for results in checked)}"
        for it in columns
    )
    return (
        '<svg xmlns="http://www.w3.org/2000/svg" role="img" aria-labelledby="title desc" '
        f'viewBox="0 0 {width} {height}" width="{width}" height="{height}">\n'
        '<title id="title">Which names each tool refuses</title>\n'
        f'<desc id="desc">Dangerous names that are refused: {escape(counts)}.</desc>\n'
        f"<style>{GRID_STYLE}</style>\n" + "\n".join(lines) + "\n</svg>\n"
    )


def derived():
    yield COVERAGE, coverage()
    for path in sorted(Path("docs/pictures").glob("*.dot")):
        dot, picture = read(path), path.with_suffix(".svg")
        is_drawn = picture.exists() and digest(dot) in read(picture)
        yield str(picture), read(picture) if is_drawn else drawn(dot, path)
