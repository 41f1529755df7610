"""Commands for those who change the repository.

A command that updates or records something writes derived files. With --check it
writes nothing, and fails if a file isn't as it would write it.
"""

import argparse
import sys
from pathlib import Path

from scripts.checks import (
    check_quotes,
    check_tests,
    check_unsafe,
    check_words,
    try_edits,
)
from scripts.deriving import (
    record_comparison,
    record_headers,
    update_benchmarks,
    update_fault_tables,
    update_pictures,
    update_promises,
    update_public_api,
    update_version,
)
from scripts.deriving.derived import differing
from scripts.sources import Wrong

# What derives or checks something, in an order in which each finds what it reads.
DERIVING = {
    "update-version": update_version,
    "update-fault-tables": update_fault_tables,
    "update-public-api": update_public_api,
    "update-promises": update_promises,
    "update-benchmarks": update_benchmarks,
    "update-pictures": update_pictures,
    "record-headers": record_headers,
    "check-quotes": check_quotes,
    "check-tests": check_tests,
    "check-unsafe": check_unsafe,
}
# The same of what has to be built first.
OF_BUILT = {
    "record-comparison": record_comparison,
}


def derive(name, module, is_check):
    """Writes what a module derives, or only compares it. Returns whether all is well."""
    try:
        texts = differing(module)
    except Wrong as wrong:
        print(wrong, file=sys.stderr)
        return False
    for path, text in texts.items():
        end = f"differs: run scripts/dev {name}" if is_check else "is written"
        if not is_check:
            Path(path).write_text(text, "utf-8")
        print(f"{path} {end}", file=sys.stderr)
    return not (is_check and texts)


def run(args):
    """Runs one deriving command, or all. Returns whether all is well."""
    modules = {**DERIVING, **OF_BUILT}
    names = [*DERIVING] if args.command == "all" else [args.command]
    return all([derive(name, modules[name], args.check) for name in names])


def parser():
    """The commands. The help of each is the documentation of its module."""
    parser = argparse.ArgumentParser(
        prog="scripts/dev",
        description=__doc__,
        formatter_class=argparse.RawDescriptionHelpFormatter,
    )
    commands = parser.add_subparsers(
        dest="command", required=True, metavar="COMMAND", title="commands"
    )

    def add(name, doc):
        return commands.add_parser(
            name,
            help=doc.partition("\n\n")[0].replace("\n", " "),
            description=doc,
            formatter_class=argparse.RawDescriptionHelpFormatter,
        )

    every = "Runs these commands but check-words, record-comparison and try-edits."
    docs = {name: it.__doc__ for name, it in {**DERIVING, **OF_BUILT}.items()}
    for name, doc in {**docs, "all": every}.items():
        command = add(name, doc)
        command.set_defaults(run=run)
        command.add_argument(
            "--check", action="store_true", help="write nothing, fail if a file differs"
        )
    add("check-words", check_words.__doc__).set_defaults(run=check_words.run)
    edits = add("try-edits", try_edits.__doc__)
    edits.set_defaults(run=try_edits.run)
    try_edits.add_arguments(edits)
    return parser


def main(words=None):
    """Runs the command that the words name. Returns the status."""
    args = parser().parse_args(words)
    try:
        return 0 if args.run(args) else 1
    except Wrong as wrong:
        print(wrong, file=sys.stderr)
        return 1
