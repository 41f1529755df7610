"""Writes the tables and the pictures of bench/README.md from bench/figures.txt.

Other pages have figures of it, too. Debian's python3-matplotlib draws the pictures: the
same files each time, but maybe another one in another version.
"""

import io
import re
from collections import defaultdict
from html import escape

from scripts.sources import Wrong, read

# Lists of names and calls in words. The page has these rows; all others are in
# figures.txt.
LISTS = {
    "refs": "references",
    "one_fault": "one fault",
    "files": "file names",
    "branches": "branches",
    "three_parts": "paths of three parts",
}
# The functions in C that calls measure, if they have another name than the row.
TITLES = {
    "tag": "`tag_name`",
    "full": "`ref`",
    "short_branch": "`branch`",
    "each_component": "`component`, each part",
}
BYTES = {
    "tag long": "valid references",
    "component long_file": "no slash",
    "sanitize_in_place long_hostile": "hostile references",
}
GITOXIDE = {
    "packed": "read {} packed references",
    "all": "`references().all()`, {} references",
    "FullName": "`FullName::try_from`, {} references",
    "reference": "`reference::name` alone, {} references",
    "component": "`path::component` alone, {} components",
    "find": "`find_reference`, {} of 100,000 references",
    "index": "index from a tree, {} files",
    "checkout": "checkout, {} files",
}
# How names are checked, by the words that figures.txt has for it.
WAYS = {
    "a name": "one name in each call",
    "in a list": "a list in one call",
    "in a buffer": "a buffer in one call",
    "by a regular expression": "by the regular expression of JavaScript's Git clients",
}
WAY = re.compile(rf"([\d.]+) (?:ns )?({'|'.join(WAYS)})")
# The heads of tables.
CALL_COLUMNS = ["Call", "Names", "Dihareku, ns", "Crate, ns", "libgit2, ns"]
CALL_COLUMNS += ["Dihareku, instructions", "Crate, instructions"]
PROGRAM_COLUMNS = ["What a program reads", "Seconds", "MB of memory"]
LANGUAGE_COLUMNS = ["Language", "The loop alone", "A short branch name"]
LANGUAGE_COLUMNS += ["A path of three parts", "Its parts, a call for each"]
HAND_COLUMNS = ["Language", "Valid", "By hand", "Invalid", "Invalid, and its offset"]
HAND_COLUMNS += ["By hand"]
PUSH_COLUMNS = ["What is pushed", "Without a hook", "With the hook"]
ATTACK_COLUMNS = ["What is pushed", "Bytes", "`receive.fsckObjects`", "The hook"]
# The pages of marks that aren't on bench/README.md.
PAGES = {"go": "bindings/go/README.md", "python": "bindings/python/README.md"}
# The row of README's table that has times.
SPEEDS = "| Time for a reference name | "
# The colours of this library, of what it is compared with most, and of others.
OURS, OTHER, THIRD = "#0072b2", "#d55e00", "#767676"
# In the dark the pictures have these instead of those above, and of those of the axes.
DARK = {OURS: "#56b4e9", OTHER: "#f59b52", THIRD: "#a5abb3"}
DARK |= {"#000000": "#a9b1ba", "#e0e0e0": "#4d525c"}
# The bars of the pictures of calls and of pushes: their colours and names.
CALLS = [(OURS, "Dihareku"), (OTHER, "Rust crate"), (THIRD, "libgit2")]
PUSH = [(THIRD, "no hook"), (OURS, "hook")]
ATTACKS = [(THIRD, "no hook, but receive.fsckObjects"), (OURS, "hook")]
# The curves of the picture: the rows and the column of their times, their styles, and
# their names. Below them what is marked on its axes.
CURVES = [
    ("full length_", 2, "-", THIRD, "libgit2, full reference"),
    ("full length_", 1, "-", OTHER, "Rust crate, full reference"),
    ("component length_file_", 1, "--", OTHER, "Rust crate, path component"),
    ("full length_", 0, "-", OURS, "Dihareku, full reference"),
    ("component length_file_", 0, "--", OURS, "Dihareku, path component"),
]
LENGTHS = {
    4: "4",
    16: "16",
    64: "64",
    256: "256",
    1 << 10: "1 Ki",
    1 << 12: "4 Ki",
    1 << 14: "16 Ki",
    1 << 16: "64 Ki",
}
TIMES = {1e1: "10 ns", 1e2: "100 ns", 1e3: "1 µs", 1e4: "10 µs", 1e5: "100 µs"}


def rows(lines, key=2):
    """The fields of each line by its first two, or by the first."""
    return {" ".join(line.split()[:key]): line.split()[key:] for line in lines}


def shown(number, decimals=0):
    """A number with commas, below 100 with so many decimals; and `-` as nothing."""
    if number == "-":
        return ""
    return f"{float(number):,.{decimals if float(number) < 100 else 0}f}"


def table(head, *body):
    """A table without outer pipes."""
    cells = [head, *body]
    lines = [" | ".join(it).rstrip() for it in cells]
    return "\n".join([lines[0], "|".join(["---"] * len(head)), *lines[1:]])


def calls(times, counts):
    """The rows of the table of calls."""
    for row, cells in times.items():
        call, names = row.split()
        if names in LISTS:
            counted = counts[row.replace("sanitize", "sanitize_in_place")]
            ours, crates = counted[0], (counted[4:5] or ["-"])[0]
            nanoseconds = (shown(it, 1) for it in cells)
            yield title_of(call), LISTS[names], *nanoseconds, shown(ours), shown(crates)


def title_of(call):
    return TITLES.get(call, f"`{call}`")


def ways(lines):
    """The table of what a name takes by each way to check it, below the version."""
    version, _, measured = lines[0].partition(": ")
    body = [(WAYS[way], each) for each, way in WAY.findall(measured)]
    cells = table(["How names are checked", "ns a name"], *body)
    return f"{version}:\n\n{cells}" + "".join(f"\n\n{it}." for it in lines[1:])


def of_languages(lines):
    """The rows of a table of numbers in each language."""
    for name, *counts in cells_of(lines):
        yield name, *(shown(it) for it in counts)


def programs(lines):
    """The rows of the table of programs. What was not measured is empty."""
    for what, *numbers in cells_of(lines):
        yield what, *("" if it == "-" else it for it in numbers)


def cells_of(lines):
    """The cells of each line but the first, the head."""
    return (re.split("  +", it) for it in lines[1:])


def gains(lines):
    """The rows of the table that says how many times as fast gitoxide is."""
    measured = rows(lines, 1)
    for call, words in GITOXIDE.items():
        results, _, _, ratio = measured[call]
        is_near = 0.8 < float(ratio) < 1.2
        gain = "about the same" if is_near else f"{float(ratio):.1f}"
        yield words.format(shown(results)), gain


def processors(parts):
    """On which processors the parts were measured."""
    measured = defaultdict(list)
    for name, processor in parts:
        measured[processor or "a processor that was not noted"].append(f"`{name}`")
    if len(measured) == 1:
        measured = {it: ["all"] for it in measured}
    on = (f"{', '.join(names)} on {it}" for it, names in measured.items())
    return f"`bench/run` measured {'; '.join(on)}."


def made(figures):
    """The text of each mark."""
    times, counts = rows(figures["times"]), rows(figures["counts"])
    costs = (
        (f"`{row.split()[0]}`", names, *counts[row][1:6:4])
        for row, names in BYTES.items()
    )
    measured = figures["counts"] + figures["trees"]
    over = [" ".join(it.split()[:3]) for it in measured if it.endswith("OVER")]
    gitoxide = table(["Gitoxide", "Times as fast"], *gains(figures["gitoxide"]))
    by_hand = [*of_languages(figures["hand"])]
    return {
        "calls": table(CALL_COLUMNS, *calls(times, counts)),
        "bytes": table(["Call", "Name", "Dihareku", "Crate"], *costs),
        "over": f"Calls that take more than their limit: {', '.join(over) or 'none'}.",
        "programs": table(PROGRAM_COLUMNS, *programs(figures["programs"])),
        "python": ways(figures["python"]),
        "javascript": ways(figures["javascript"]),
        "go": ways(figures["go"]),
        "languages": table(LANGUAGE_COLUMNS, *of_languages(figures["languages"])),
        "hand": table(HAND_COLUMNS, *(it[:6] for it in by_hand)),
        "hand-instructions": table(HAND_COLUMNS, *((it[0], *it[6:]) for it in by_hand)),
        "gitoxide": f"{figures['gitoxide'][0]}:\n\n{gitoxide}",
        "push": table(PUSH_COLUMNS, *cells_of(figures["push"])),
        "pushes": table(ATTACK_COLUMNS, *cells_of(figures["pushes"])),
    }


def figure_of(size):
    """An empty picture."""
    try:
        # (Here, since no other command needs it.)
        import matplotlib
        from matplotlib.figure import Figure
    except ImportError as error:
        raise Wrong(
            f"the picture needs Debian's python3-matplotlib, and /usr/bin/python3: {error}"
        ) from error
    matplotlib.rcdefaults()
    matplotlib.rcParams["font.size"] = 11
    # (so that text stays text, and ids stay the same)
    matplotlib.rcParams.update({"svg.fonttype": "none", "svg.hashsalt": "length"})
    matplotlib.rcParams.update({"axes.spines.top": False, "axes.spines.right": False})
    matplotlib.rcParams.update({"legend.edgecolor": "none", "legend.facecolor": "none"})
    return Figure(figsize=size, layout="constrained")


def style():
    """The colours of the text, and all colours in the dark."""
    rules = "".join(
        f'[style*="{kind}: {light}"] {{ {kind}: {dark} !important }}\n'
        for light, dark in DARK.items()
        for kind in ("fill", "stroke")
    )
    dark = "@media (prefers-color-scheme: dark) {\ntext { fill: #e6e9ed }\n"
    return f"<style>\ntext {{ fill: #1f2328 }}\n{dark}{rules}}}\n</style>\n"


def svg_of(figure, title, description):
    """The picture as SVG without a background, with words for those who can't see it."""
    drawn = io.StringIO()
    figure.savefig(drawn, format="svg", metadata={"Date": None}, transparent=True)
    words = (
        f'<title id="title">{escape(title)}</title>\n'
        f'<desc id="desc">{escape(description)}</desc>\n'
    )
    svg = re.sub(
        r"<svg (.*)>\n",
        rf'<svg role="img" aria-labelledby="title desc" \1>\n{words}{style()}',
        drawn.getvalue(),
        count=1,
    )
    return re.sub(" +\n", "\n", svg)


def draw_bars(axes, rows, bars):
    """Draws a group of bars for each row: the cells of its name, in these colours."""
    width = 0.81 / len(bars)
    for column, (colour, label) in enumerate(bars):
        cells = [row[column] for row in rows.values()]
        numbers = [float(re.sub(",(?: .*)?", "", it) or 0) for it in cells]
        centre = (len(bars) - 1) / 2
        places = [place + (column - centre) * width for place in range(len(rows))]
        drawn = axes.barh(places, numbers, width - 0.02, color=colour, label=label)
        axes.bar_label(drawn, cells, padding=3, fontsize=9)
    axes.set_yticks(range(len(rows)), [*rows])
    axes.invert_yaxis()


def put_legend_above(axes):
    """Puts the legend in one row above the bars, where it covers no number."""
    axes.legend(loc="lower center", bbox_to_anchor=(0.5, 1), ncols=3)


def speeds(times):
    """What a full reference name takes, in the order of README's table."""
    ours, crate, libgit2 = (f"{shown(it)} ns" for it in times["full refs"])
    return f"{ours} | | starts a process | {libgit2} | {crate}"


def bars(times):
    """The time of a call of this library next to that of others, as SVG."""
    figure = figure_of((8, 4.6))
    axes = figure.subplots()
    rows = {}
    for row, cells in times.items():
        call, names = row.split()
        if names in LISTS:
            row = f"{title_of(call)}: {LISTS[names]}".replace("`", "")
            rows[row] = [shown(it) for it in cells]
    draw_bars(axes, rows, CALLS)
    axes.set_xlabel("nanoseconds of a call")
    axes.margins(x=0.08)
    put_legend_above(axes)
    description = "Bars: nanoseconds of a call. " + said(rows, CALLS)
    return svg_of(figure, "Calls next to the Rust crate and libgit2", description)


def said(rows, bars):
    """What the bars show, in words."""
    names = [name for _, name in bars]
    return " ".join(
        f"{row}: {', '.join(f'{name} {it}' for name, it in zip(names, cells) if it)}."
        for row, cells in rows.items()
    )


def pushes(push, attacks):
    """What the hook adds to a push, and what it takes for those that attack it, as SVG."""
    figure = figure_of((9, 11))
    above, below = figure.subplots(2, gridspec_kw={"height_ratios": [3.5, 14]})
    few = {name: cells for name, *cells in push}
    many = {name: cells for name, _, *cells in attacks}
    draw_bars(above, few, PUSH)
    draw_bars(below, many, ATTACKS)
    above.set_title("Pushes, in milliseconds", pad=26)
    below.set_title("Attacks on the hook, in seconds", pad=26)
    for axes in (above, below):
        axes.margins(x=0.12, y=0.02)
        put_legend_above(axes)
    description = (
        f"Bars: milliseconds of a push. {said(few, PUSH)} Bars: seconds of a push that "
        f"attacks the hook. {said(many, ATTACKS)}"
    )
    return svg_of(figure, "What the hook adds to a push", description)


def picture(times):
    """The time of a call by the length of the name, as SVG."""
    figure = figure_of((8, 4.8))
    axes = figure.subplots()
    ends = []
    for front, column, style, colour, label in CURVES:
        points = [
            (int(row.removeprefix(front)), float(cells[column]))
            for row, cells in times.items()
            if row.startswith(front)
        ]
        axes.loglog(*zip(*points), style, color=colour, linewidth=2, label=label)
        ends.append(f"{label} {points[-1][1] / 1000:.0f} µs")
    axes.set_xlabel("length of the name in bytes")
    axes.set_ylabel("time of a call")
    axes.set_xticks([*LENGTHS], LENGTHS.values())
    axes.set_yticks([*TIMES], TIMES.values())
    axes.minorticks_off()
    axes.grid(color="#e0e0e0")
    axes.legend(loc="upper left")
    description = f"Curves, on axes of powers. At {[*LENGTHS.values()][-1]} bytes: "
    description += f"{', '.join(ends)}."
    return svg_of(figure, "Time of a call by the length of the name", description)


def derived():
    head = re.compile(r"(?m)^== (\w+)(?:, measured on (.*))?\n")
    parts = head.split(read("bench/figures.txt"))
    figures = {name: text.splitlines() for name, text in zip(parts[1::3], parts[3::3])}
    texts = {"processors": processors(zip(parts[1::3], parts[2::3])), **made(figures)}
    yield "README.md", SPEEDS, " |\n", speeds(rows(figures["times"]))
    for name, text in texts.items():
        page = PAGES.get(name, "bench/README.md")
        yield page, f"<!-- {name} -->\n\n", "\n\n<!-- end -->", text
    yield "bench/length.svg", picture(rows(figures["times"]))
    yield "bench/calls.svg", bars(rows(figures["times"]))
    push, attacks = (
        [re.split("  +", line) for line in figures[name][1:]]
        for name in ("push", "pushes")
    )
    yield "bench/pushes.svg", pushes(push, attacks)
