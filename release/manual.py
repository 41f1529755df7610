"""Writes the manual pages of a release: those of the programs and of the hook from
release/programs, and gix_validate(3) from the header, with a link to it for each function."""

import re

from release import descriptions

# What groff would print as another character, and how it is written in code.
IN_CODE = {"-": r"\-", "'": r"\(aq", "`": r"\(ga", "^": r"\(ha", "~": r"\(ti"}
PARAGRAPH = ".PP\n"


def literal(text):
    """Code, which troff prints byte for byte."""
    text = re.sub(r"[-'`^~]", lambda it: IN_CODE[it[0]], text.replace("\\", r"\e"))
    return re.sub(r"(?m)^(?=\.)", r"\\&", text)


def marked(text):
    """A paragraph, on one line: `code` in bold and *words* slanted."""
    text, line, end = " ".join(text.split()), "", 0
    for it in descriptions.MARKED.finditer(text):
        line += text[end : it.start()].replace("\\", r"\e")
        line += bold(it["code"]) if it["code"] else slanted(it["word"])
        end = it.end()
    line += text[end:].replace("\\", r"\e")
    return re.sub(r"^(?=[.'])", r"\\&", line) + "\n"


def bold(text):
    return f"\\fB{literal(text)}\\fR"


def slanted(text):
    return f"\\fI{literal(text)}\\fR"


def block(text):
    """Lines of code, as they are."""
    return f".PP\n.RS 4\n.EX\n{literal(text)}\n.EE\n.RE\n"


def item(term, text):
    """A term, which is troff already, and the paragraph that explains it."""
    return f".TP\n{term.rstrip()}\n{marked(text)}"


def prose(text):
    """The paragraphs of a text of release/programs."""
    page = ""
    for paragraph in re.split(r"\n\s*\n|\n(?=- )", text.strip("\n")):
        first, _, rest = paragraph.partition("\n")
        if paragraph.startswith("    "):
            page += block(re.sub("(?m)^    ", "", paragraph))
        elif rest.startswith(":   "):
            page += item(marked(first), rest[4:])
        elif paragraph.startswith("- "):
            page += f".IP \\(bu 2\n{marked(paragraph[2:])}"
        else:
            page += f".PP\n{marked(paragraph)}"
    return page


def section(heading, text, macro="SH"):
    """A section. (No .PP comes right after its heading.)"""
    return f".{macro} {heading}\n{text.removeprefix(PARAGRAPH)}"


def option_of(option):
    names, value = descriptions.names_of(option)
    term = ", ".join(map(bold, names)) + (f" {slanted(value)}" if value else "")
    return item(term, option["text"])


def word_of(word):
    return item(bold(word["word"]), word["text"])


def subcommand_of(subcommand):
    text = prose(f"{subcommand['text']}\n\n{subcommand['description']}")
    options = "".join(map(option_of, subcommand["options"]))
    return section(subcommand["word"], text + options, "SS")


def setting_of(setting):
    default = f" (default {setting['default']})" if "default" in setting else ""
    return item(bold(setting["name"]) + literal(default), setting["text"])


def status_of(status):
    return item(*status)


def example_of(example):
    texts = [example["command"], example.get("prints", "")]
    shown = (block(it.strip("\n")) for it in texts if it)
    return prose(example["text"]) + "".join(shown)


def other_page(page):
    name, number = re.fullmatch(r"(.*)(\(\d\))", page).groups()
    return bold(name) + number


def title(name, number, version, day):
    return f'.TH {name.upper()} {number} "{day}" "gix-validate {version}"\n'


def page_of(described, version, day):
    """The manual page of a program or of the hook."""
    name = described["name"]
    called = bold(described.get("program", name))
    ways = (f"{called} {marked(it)}" for it in described["synopsis"])
    page = title(name, described["section"], version, day)
    page += section("NAME", f"{literal(name)} \\- {marked(described['brief'])}")
    page += section("SYNOPSIS", ".br\n".join(ways))
    page += section("DESCRIPTION", prose(described["description"]))
    for heading, key, part in [
        ("KINDS", "words", word_of),
        ("OPTIONS", "options", option_of),
        ("SUBCOMMANDS", "subcommands", subcommand_of),
        ("SETTINGS", "settings", setting_of),
    ]:
        if key in described:
            page += section(heading, "".join(map(part, described[key])))
    for it in described.get("sections", []):
        page += section(it["heading"], prose(it["text"]))
    statuses = described["status"].items()
    page += section("EXIT STATUS", "".join(map(status_of, statuses)))
    page += section("EXAMPLES", "".join(map(example_of, described["examples"])))
    pages = ", ".join(map(other_page, described["also"]))
    return page + section("SEE ALSO", pages + "\n")


def declarations(text):
    """Declarations of the header, without the bodies of functions, and without what only the
    compiler needs."""
    text = re.sub(r"(?ms)^static inline ([^{]*?) \{\n.*?^\}", r"\1;", text)
    text = re.sub(
        r'(?m)^(#(?!define GIX_VALIDATE_[TV])|extern "C"|\}$)(.*\\\n)*.*\n',
        "",
        text,
    ).strip()
    return block(text) if text else ""


def comment_of(text):
    """The paragraphs of a comment of the header. What is indented in it is code."""
    text = re.sub(r"(?m)^ ?\* ?|^   (?=\S)", "", text).strip("\n")
    page = ""
    for paragraph in re.split(r"\n\s*\n|\n(?= +- )", text):
        words = " ".join(paragraph.split())
        if paragraph.startswith("    "):
            page += block(paragraph)
        elif words.startswith("- "):
            page += f".IP \\(bu 2\n{plain(words[2:])}"
        else:
            page += f".PP\n{plain(words)}"
    return page


def plain(text):
    """A paragraph without marks."""
    return re.sub(r"^(?=[.'])", r"\\&", text.replace("\\", r"\e")) + "\n"


def declared_in(header):
    """The functions that the header declares."""
    return re.findall(
        r"(?m)^(?:static inline )?\w[\w ]*[ *\n](gix_validate_\w+)\(",
        re.sub(r"(?s)/\*.*?\*/", "", header),
    )


def page_of_functions(header, version, day):
    """gix_validate(3): the comments and the declarations of the header, in order."""
    header = re.sub(r" */\* clang-format \w+ \*/\n", "", header)
    parts = re.split(r"(?ms)^/\*(.*?)\*/\n", header)
    names = ", ".join(["gix_validate", *declared_in(header)])
    page = title("gix_validate", 3, version, day)
    page += section("NAME", f"{names} \\- validate the names that Git uses\n")
    page += ".nh\n.ad l\n" + section("SYNOPSIS", block("#include <gix_validate.h>"))
    text = (
        comment_of(it) + declarations(code)
        for it, code in zip(parts[1::2], parts[2::2])
    )
    page += section("DESCRIPTION", "".join(text))
    pages = ["git-check-names(1)", "check_names(1)", "git-check-ref-format(1)"]
    return page + section("SEE ALSO", ", ".join(map(other_page, pages)) + "\n")


def write(release, version, day):
    """Writes all manual pages into the directory of a release."""
    manuals = release / "share/man"
    pages = {
        (it["section"], name): page_of(it, version, day)
        for name, it in descriptions.read_all().items()
    }
    header = (release / "include/gix_validate.h").read_text("ascii")
    pages[3, "gix_validate"] = page_of_functions(header, version, day)
    for (number, name), page in pages.items():
        file = manuals / f"man{number}/{name}.{number}"
        file.parent.mkdir(parents=True, exist_ok=True)
        file.write_text(page, "utf-8")
    for name in declared_in(header):
        (manuals / "man3" / f"{name}.3").symlink_to("gix_validate.3")
