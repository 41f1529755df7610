"""What a user sees of each program: release/programs/NAME.toml.

The manual pages (release/manual.py) and the completions of bash, zsh and fish
(release/completion.py) are made of these files, and tests/test_descriptions.py compares them
with what the programs print for --help. The keys of a file:

- `name`, `section`, `brief`: those of the manual page. `program` is what the synopsis has
  instead of the name.
- `synopsis`: what follows the name, one string for each way to call the program.
- `description`: the text of that section.
- `complete`: what completes an argument that is no option: `words`, `subcommands`,
  `revisions`, or nothing.
- `words`: the kinds of names, each with a `word` and a `text`.
- `options`: each with the `option` as --help writes it, and a `text`, whose first sentence
  describes it in completions. `values` is what completes its value: a list of words that
  are separated by commas, `directories`, or `text`.
- `subcommands`: each with a `word`, a `text`, a `description` and `options`.
- `settings`: each with a `name`, perhaps a `default`, and a `text`.
- `sections`: further sections, each with a `heading` and a `text`.
- `status`: what each exit status means.
- `examples`: each with a `text` and a `command`. If it has `prints`, the tests run it. Its
  `status` is 0 if nothing else is said.
- `also`: other manual pages.

A text has paragraphs. In them `code` is bold and *word* is slanted. A paragraph that is
indented by four spaces is printed as it is; one that begins with "- " is an item of a list,
and one whose second line begins with ":   " explains its first line.
"""

import re
from pathlib import Path

import tomllib

FILES = Path(__file__).resolve().parent / "programs"
# Code, or a word that stands for another one.
MARKED = re.compile(r"`(?P<code>[^`]+)`|\*(?P<word>\w[^*\s]*)\*")


def read_all():
    """The descriptions, by the names of the programs."""
    texts = (it.read_text("utf-8") for it in sorted(FILES.glob("*.toml")))
    return {it["name"]: it for it in map(tomllib.loads, texts)}


def names_of(option):
    """The names of an option, and its value if it needs one: of "-h, --help" the two."""
    *names, last = option["option"].split(", ")
    last, _, value = last.partition(" ")
    return [*names, last], value


def first_sentence(text):
    """The first sentence of a text, without marks and its full stop, for a completion."""
    sentence = re.split(r"\.(?=\s|$)", text, maxsplit=1)[0]
    return MARKED.sub(lambda it: it["code"] or it["word"], " ".join(sentence.split()))
