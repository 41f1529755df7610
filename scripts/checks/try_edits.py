"""Tries must-fail edits on copies of their crates, and says what refuses each.

A copy begins with what is proved of the crate already. The status is 0 if each edit is refused
in the function that its line 'refused:' names, and in no other that it leaves alone. (The
check may not name each clause.) It is 1 if

- one is not, or no longer applies, or two have the same effect;
- a check was cut short, or there is no edit;
- a control is refused, or an edit of must-fail/ has none and doesn't say why;
- braces around a body, which change nothing, are refused.

Edits are tried together, one of each function in a check. An edit that its line doesn't
explain there is tried alone. Each is printed with what refuses it. An edit that only a
search that gave up refuses, or one that came to its limit, tells less than the others.

A *control* is a right body that changes as much of the text as the edit. (Lines 'right:'
have it, one after each 'new:'.) The check has to accept it: otherwise the edit may be
refused for its form, and tells nothing of the contract. An edit that has no such control
is *hollow*, and its line 'hollow:' says why.

With --turns it tries the edits of mutants/ in crates that changed since the commit in
.ci/edits-tried, for which `.ci/run --all-edits` tried all, and thirty more, drawn by the
hash of HEAD, crate by crate, first one of each function: with its first edits a crate is
proved once more, and edits of one function take a check each. (A crate changes with its own
files and its line in crates.txt, not with the crates below it.) Of must-fail/, whose edits
`rt ci` tries, it tries the controls in these crates. Without such a commit it tries all.

Before the edits, rt checks their crates as they are, unless --built says that they have just
been proved. In any case each crate is checked with braces around a body, which has to be
accepted. Of `rt ci` nothing is left to begin with, so this first check leaves what it has proved
to the others.

With --controls it draws edits of mutants/, by the hash of HEAD or --seed, and tries their
controls. For an edit without one that is braces around what the edit changes. If these
are refused, the edit may be hollow; that is said and counted, and is no failure.
"""

import hashlib
import os
import re
import subprocess
import tempfile
from collections import Counter
from concurrent.futures import ThreadPoolExecutor
from contextlib import suppress
from pathlib import Path
from typing import NamedTuple, Optional

from scripts.sources import Edit, Wrong, bodies, edits, read, replaced

# The commit for which all edits were tried, in a line, and how many are tried besides those
# of crates that changed since.
TRIED, MORE = ".ci/edits-tried", 30
RATTLE = Path(__file__).parents[1] / "rattle"
# Where a crate has what checks have proved.
KEPT = "out/incremental"

# How a function is refused, the best evidence first.
VALUE = "by values at which it is false"
ENDED = "by a search that ended"
PROOF = "by its old proof"
LIMIT = "by a search that gave up"
NAMES = "by names alone"
WAYS = (VALUE, ENDED, PROOF, LIMIT, NAMES)
# What a proof says that only cites a name which is no longer there.
NAMED = re.compile(
    r"has no (?:field|`)|can be named (?:from )?here|not in scope|was not admitted"
)
# What is said of a search that didn't end.
UNENDED = re.compile(r"gave up|stopped at its own limit")
# The lines about what isn't proved, in proofs and in sources; the line about a function
# comes after those of its source.
SAID = re.compile(
    r"""(?mx)
    ^\./proofs/(?P<place>[\w/]+)/\w+\.antt:\d+:\d+:[ ]error:[ ](?P<error>.*(?:\n[ ]{2}.*)?)
    |^(?P<note>note:[ ]\S+[ ]it[ ]is[ ]not[ ]proved[ ].*)
    |^fn[ ](?P<function>\S+):[ ](?P<about>.*)"""
)
# What a function is said to be that isn't refused itself.
WAITS = ("no proof: it ", "not proved; it ")
# What of a check is shown of an edit that is tried alone.
SHOWN = re.compile(r"(?m)^(?:fn \S+: (?!proved$)|\./proofs/|note: .* not proved).*")


# What stands for the folder of edits that put braces around a body.
HARMLESS = Path("a harmless edit")

# A line with the value of a `let`, an arm or a field, or with a statement, an argument or the
# value at the end of a block.
VALUE_IN_LINE = re.compile(
    r"""(?x) (?P<margin>[ ]*) (?P<head> let[ ].*?[ ]=[ ] | .*?[ ]=>[ ] | \w+:[ ] )?
    (?P<value>[^=&|.?+*/}-].*?) (?P<end>[;,]?)"""
)


class Control(NamedTuple):
    file: Path  # that of its edit
    said: list  # what the check said of it, if that refused it


class Tried(NamedTuple):
    edit: Edit
    way: Optional[str]  # how it is refused
    wrong: list  # what is wrong with that, in lines
    said: list  # what the check said of it


def checked(crate, by=RATTLE):
    """The status of a check in this folder of a crate, and what it said. It is over the
    libraries that are there, unless it is by `rt`, which proves them if they have changed.
    """
    done = subprocess.run(
        [by, "check", "--jobs", "1"],
        cwd=crate,
        stdin=subprocess.DEVNULL,
        capture_output=True,
        encoding="utf-8",
        errors="replace",
    )
    return done.returncode, done.stdout + done.stderr


def way_of(errors, notes):
    """How a function is refused, by the errors of its proof and the notes of its source."""
    left = [it for it in errors if not NAMED.search(it)]
    if any(
        "allow values at which" in it or "the part fails, at" in it
        for it in left + notes
    ):
        return VALUE
    if not all(UNENDED.search(it) for it in notes):
        return ENDED
    if not all(UNENDED.search(it) for it in left):
        return PROOF
    return NAMES if errors and not left else LIMIT


def refusals(crate, text):
    """The functions of a crate that a check refused themselves, each with how it did.
    (Others only wait for these.)"""
    errors, notes, found = {}, [], {}
    for it in SAID.finditer(text):
        if it["place"]:
            function = f"{crate}/{it['place']}".replace("/", "::")
            errors.setdefault(function, []).append(it["error"])
    for it in SAID.finditer(text):
        if it["note"]:
            notes.append(it["note"])
        elif name := it["function"]:
            of_proof = errors.get(name, [])
            is_refused = of_proof or notes or not it["about"].startswith(WAITS)
            if it["about"] != "proved" and is_refused:
                found[name] = way_of(of_proof, notes)
            notes = []
    return found


def came_to_its_end(status, text, refused):
    """Whether a check reached the prover, and ended as what it refused says."""
    verdict = re.findall(r"(?m)^logic=(\S+)", text)
    expected = (1, ["not-proved"]) if refused else (0, ["proved"])
    is_cut_short = re.search(r"(?m)^\./specs/|antt did not admit", text)
    return not is_cut_short and (status, verdict) == expected


def edited(source, batch):
    """A source with those of these edits that are of it. (One may write what another
    replaces, so each is made in the source as it was.)"""
    text = read(source)
    changes = [change_of(it, text) for it in batch if it.source == source]
    for first, last, body in sorted(changes, reverse=True):
        text = text[:first] + body + text[last:]
    return text


def change_of(edit, text):
    """Where the body is that an edit changes, and what it is then."""
    changed = replaced(text, edit.pairs)
    for function, first, last in bodies(edit.source):
        before, after = text[:first], text[last:]
        if function == edit.function and changed.startswith(before):
            if changed.endswith(after):
                return first, last, changed[first : len(changed) - len(after)]
    raise Wrong(f"{edit.file} changes something else than the body of {edit.function}")


def checked_with(batch, room):
    """The status of a check of the edited crate, in a new folder, and what it said. What it
    has proved is kept in the crate's own folder, if nothing is yet.
    """
    # (Second names are enough: a check replaces files, and never writes into one.)
    copied = ["HANDLES", "crates.txt", "crates"]
    subprocess.run(["cp", "-al", *copied, room], check=True)
    for source in sorted({edit.source for edit in batch}):
        path = Path(room, source)
        path.unlink()
        path.write_text(edited(source, batch), "utf-8")
    crate = f"crates/{batch[0].crate}"
    ended = checked(f"{room}/{crate}")
    with suppress(OSError):  # (something is there, or nothing was proved)
        os.renames(f"{room}/{crate}/{KEPT}", f"{crate}/{KEPT}")
    return ended


def tried(batch):
    """Tries edits in one check, and alone what their lines don't explain."""
    with tempfile.TemporaryDirectory(prefix="edit-", dir="out") as room:
        status, text = checked_with(batch, room)
    refused = refusals(batch[0].crate, text)
    is_read = came_to_its_end(status, text, refused)
    said = SHOWN.findall(text) if len(batch) == 1 else []
    # (The check adds the trait of an impl to its type, and `Ref` in front of that of
    # references.)
    functions = [
        re.compile(re.sub(r"([A-Z]\w*)::", r"(Ref)?\1\\w*::", it.function))
        for it in batch
    ]
    others = [it for it in refused if not any(of.fullmatch(it) for of in functions)]
    found = []
    for edit, function in zip(batch, functions):
        ways = [way for name, way in refused.items() if function.fullmatch(name)]
        way = min(ways, key=WAYS.index, default=None)
        wrong = wrong_with(edit, way, others)
        if not is_read:
            wrong = [
                f"it did not reach the prover, and ended with status {status}:",
                *text.split("\n")[-20:],
            ]
        is_unclear = wrong and len(batch) > 1
        found += tried([edit]) if is_unclear else [Tried(edit, way, wrong, said)]
    return found


def wrong_with(edit, way, others):
    """What is wrong with how an edit is refused, and with what else is."""
    wrong = [f"REFUSED in {it}, which it doesn't change" for it in others]
    if way is None:
        wrong.append(f"NOT REFUSED in {edit.function}")
    elif way == NAMES:
        wrong.append(f"NOT REFUSED in {edit.function}, but {way}")
    return wrong


def accepted(batch):
    """Tries controls in one check, and each alone if that doesn't prove all."""
    with tempfile.TemporaryDirectory(prefix="control-", dir="out") as room:
        status, text = checked_with(batch, room)
    refused = refusals(batch[0].crate, text)
    is_read = came_to_its_end(status, text, refused)
    if is_read and not refused:
        return [Control(it.file, []) for it in batch]
    if len(batch) > 1:
        return [found for it in batch for found in accepted([it])]
    [edit] = batch
    if not is_read and edit.control:
        return accepted([by_control(edit)])
    return [Control(edit.file, SHOWN.findall(text) or text.split("\n")[-20:])]


def by_control(edit):
    """The edit that makes the control."""
    return edit._replace(pairs=edit.control, control=None)


def with_body(edit, change):
    """An edit of the same function that changes its body by this, which is given the body,
    and where the edit changes it."""
    text = read(edit.source)
    at = text.index(edit.pairs[0][0])
    for path, first, last in bodies(edit.source):
        if path == edit.function and first <= at < last:
            changed = change(text[first:last], at - first)
            # (A body may be in the source twice, all before its end only once.)
            pairs = [(text[:last], text[:first] + changed)]
            return edit._replace(pairs=pairs, control=None)
    raise Wrong(f"{edit.file} changes no body of {edit.function}")


def around_body(edit):
    """Braces around the body, which change nothing."""
    return with_body(edit, lambda body, at: f"{{{body}}}")


def around_line(edit):
    """Braces around what an edit changes, if that is in a line, or else around the body.
    (It is around the body, too, if the check can't read the former.)"""
    return with_body(edit, in_braces)._replace(control=around_body(edit).pairs)


def in_braces(body, at):
    """The body with braces around the value or the statement in the line of this place."""
    first, last = body.rindex("\n", 0, at) + 1, f"{body}\n".index("\n", at)
    line, after = body[first:last], body[last:].split()[:1]
    parts = VALUE_IN_LINE.fullmatch(line)
    is_value = parts and (parts["head"] or parts["end"] or after in ([], ["}"]))
    if not is_value or not is_balanced(parts["value"]):
        return f"{{{body}}}"
    head, value, end = parts["head"] or "", parts["value"], parts["end"]
    inside = f"{{ {value}; }}" if not head and end == ";" else f"{{ {value} }}{end}"
    return f"{body[:first]}{parts['margin']}{head}{inside}{body[last:]}"


def shortest(chosen):
    """The edit that changes the shortest body."""
    found = (
        (last - first, it)
        for it in chosen
        for path, first, last in bodies(it.source)
        if path == it.function
    )
    return min(found, key=lambda it: it[0])[1]


def is_balanced(text):
    """Whether each bracket in a text is closed there."""
    previous = None
    while text != previous:
        previous, text = text, re.sub(
            r"\([^][(){}]*\)|\[[^][(){}]*\]|\{[^][(){}]*\}", "", text
        )
    return not re.search(r"[][(){}]", text)


def names_of(edit):
    """What may name an edit in a command."""
    file = edit.file
    return {"all", edit.crate, file.stem, f"{edit.crate}/{file.stem}", str(file)}


def is_mutant(edit):
    """Whether `rt ci` doesn't try it."""
    return edit.file.parent.name != "must-fail"


def named(names):
    """The edits that these names choose."""
    every = edits()
    known = set().union(*map(names_of, every))
    if unknown := sorted(set(names) - known):
        raise Wrong(f"there is no edit {' '.join(unknown)}")
    return [it for it in every if names_of(it) & set(names)]


def git(*words):
    """What git says, or None if it fails."""
    done = subprocess.run(["git", *words], capture_output=True, encoding="utf-8")
    return done.stdout.strip() if done.returncode == 0 else None


def head():
    commit = git("rev-parse", "--verify", "HEAD")
    if commit is None:
        raise Wrong("there is no commit here")
    return commit


def by_lot(chosen, seed):
    """These edits in an order that is drawn by lot."""
    return sorted(
        chosen,
        key=lambda it: hashlib.sha256(f"{seed} {it.file}".encode()).digest(),
    )


def drawn(chosen, number, seed):
    """As many of these edits, drawn by lot. With the same seed they are the same."""
    return sorted(by_lot(chosen, seed)[:number])


def drawn_by_crate(chosen, number, seed):
    """As many of these edits, drawn by lot: first those of the crate of the first, one of
    each function before a second. (A crate with many edits mostly comes first, and then no
    other has to be proved once more. Two edits of one function take two checks.)
    """
    order, earlier = by_lot(chosen, seed), Counter()
    crates = [it.crate for it in order]

    def place(edit):
        earlier[edit.crate, edit.function] += 1
        return crates.index(edit.crate), earlier[edit.crate, edit.function]

    return sorted(sorted(order, key=place)[:number])


def changed_since(commit):
    """The crates whose files, or lines in crates.txt, changed since this commit."""
    files = git("diff", "--name-only", "--no-renames", commit, "--", "crates")
    lines = git("diff", "--unified=0", commit, "--", "crates.txt")
    of_files = re.findall(r"(?m)^crates/(\w+)/", files)
    return {*of_files, *re.findall(r"(?m)^\+(\w+)", lines)}


def in_turn():
    """The edits of mutants/ whose turn it is, and those of must-fail/ whose crates changed."""
    every = edits()
    commit = read(TRIED).strip() if os.path.exists(TRIED) else ""
    if git("cat-file", "-e", f"{commit}^{{commit}}") is None:
        print(f"{TRIED} names no commit that is here, so all are tried")
        crates = {it.crate for it in every}
    else:
        crates = changed_since(commit)
        print(f"changed since {commit}: {' '.join(sorted(crates)) or 'no crate'}")
    seed, mutants = head(), [it for it in every if is_mutant(it)]
    turn = [it for it in mutants if it.crate in crates]
    others = [it for it in mutants if it.crate not in crates]
    more = drawn_by_crate(others, MORE, seed)
    print(f"drawn by {seed}:", *(it.file for it in more), sep="\n  ")
    famous = [it for it in every if it.crate in crates and not is_mutant(it)]
    return [*turn, *more], famous


def batches(chosen):
    """The edits by crate, with no two of one function together."""
    found, count = {}, Counter()
    for edit in chosen:
        found.setdefault((edit.crate, count[edit.function]), []).append(edit)
        count[edit.function] += 1
    return [*found.values()]


def add_arguments(parser):
    which = parser.add_mutually_exclusive_group(required=True)
    which.add_argument(
        "names",
        nargs="*",
        default=[],
        metavar="NAME",
        help="an edit's name, CRATE/NAME or file, a crate, or 'all'",
    )
    which.add_argument(
        "--turns", action="store_true", help="the edits whose turn it is"
    )
    which.add_argument(
        "--controls",
        nargs="?",
        type=int,
        const=20,
        metavar="N",
        help="the controls of this many edits, drawn by lot (default: 20)",
    )
    parser.add_argument("--seed", help="what draws them (default: the hash of HEAD)")
    parser.add_argument(
        "--built",
        action="store_true",
        help="the crates were just proved without an edit",
    )
    parser.add_argument(
        "--jobs",
        type=int,
        default=len(os.sched_getaffinity(0)),
        metavar="N",
        help="how many checks run at once (default: the processors)",
    )


def check_unedited(chosen, args):
    """Fails if a crate of these edits isn't proved without one, or if there is none."""
    if not chosen:
        raise Wrong("there is no edit to try")
    if args.built:
        return
    crates = sorted({it.crate for it in chosen})
    with ThreadPoolExecutor(args.jobs) as pool:
        found = pool.map(lambda it: checked(f"crates/{it}", "rt"), crates)
    for crate, (status, _) in zip(crates, found):
        if status:
            raise Wrong(
                f"{crate} isn't proved without an edit either: rt check there says why"
            )


def run(args):
    """Tries the edits that the arguments name, or their controls. Returns whether all is
    well."""
    os.makedirs("out", exist_ok=True)
    if args.controls is not None:
        return try_drawn(args.controls, args.seed or head(), args)
    chosen, others = in_turn() if args.turns else (named(args.names), [])
    check_unedited([*chosen, *others], args)
    return try_all(chosen, others, args.jobs)


def try_all(chosen, others, jobs):
    """Tries edits, and the controls of these and of others."""
    every = [*chosen, *others]
    # (One of each crate, which so is proved with all but what its edits change.)
    crates = sorted({it.crate for it in every})
    harmless = [around_body(shortest(of_crate(it, every))) for it in crates]
    harmless = [it._replace(file=HARMLESS / it.function) for it in harmless]
    controls = batches([*harmless, *(by_control(it) for it in every if it.control)])
    plan = batches(chosen)
    tasks = [*((accepted, it) for it in controls), *((tried, it) for it in plan)]
    found = returned(tasks, jobs)
    results = {it.edit.file: it for it in found if isinstance(it, Tried)}
    said = {it.file: it.said for it in found if isinstance(it, Control)}
    of_harmless = {it.function: said.pop(it.file) for it in harmless}
    of_harmless = {function: lines for function, lines in of_harmless.items() if lines}
    ends = [end_of(it, results.get(it.file), said.get(it.file)) for it in every]
    for is_failed, lines in sorted(ends, key=lambda it: it[0]):
        print(*lines, sep="\n  ")
    ways = Counter(it.way for it in results.values() if not it.wrong)
    print(
        ", ".join(f"{ways[way]} {way}" for way in WAYS if ways[way]) or "none refused"
    )
    print(f"{controls_counted(said)}; {sum(bool(it.hollow) for it in every)} hollow")
    for function, lines in of_harmless.items():
        print(f"braces around the body of {function} FAILED", *lines, sep="\n  ")
    print(
        f"{sum(ways.values())} refused as their lines say,",
        f"{sum(is_failed for is_failed, _ in ends)} failed, in {len(plan)} checks;",
        "a harmless one is",
        "REFUSED" if of_harmless else "accepted",
    )
    return not of_harmless and not any(is_failed for is_failed, _ in ends)


def of_crate(crate, every):
    return [it for it in every if it.crate == crate]


def returned(tasks, jobs):
    """What these calls return of their batches, all in one list. Of a crate of which nothing
    is kept the first is over before the others begin, since it keeps what they take.
    """
    early = {}
    for call, batch in tasks:
        crate = batch[0].crate
        if not os.path.isdir(f"crates/{crate}/{KEPT}"):
            early.setdefault(crate, (call, batch))
    later = [it for it in tasks if it not in early.values()]
    found = []
    with ThreadPoolExecutor(jobs) as pool:
        for some in early.values(), later:
            found += pool.map(lambda task: task[0](task[1]), some)
    return [it for of_batch in found for it in of_batch]


def controls_counted(said):
    refused = sum(map(bool, said.values()))
    return f"{len(said) - refused} controls accepted, {refused} refused"


def end_of(edit, result, said):
    """Whether an edit failed, and how it ended, by what was found of it and of its control
    (None if that wasn't tried)."""
    ends, wrong = [], list(said or [])
    if result:
        way = f"refused as its line says, {result.way}"
        ends.append("FAILED" if result.wrong else way)
        wrong += [*result.said, *result.wrong]
    if said is not None:
        ends.append("control REFUSED" if said else "control accepted")
    if edit.hollow:
        ends.append(f"hollow: {edit.hollow}")
    is_bare = not is_mutant(edit) and not edit.control and not edit.hollow
    if is_bare:
        ends.append("FAILED")
        wrong.append("it has no line 'right:' or 'hollow:'")
    is_failed = bool(said or is_bare or result and result.wrong)
    return is_failed, [f"{edit.file}: {', '.join(ends)}", *wrong]


def try_drawn(number, seed, args):
    """Tries controls of edits of mutants/ that are drawn by lot."""
    every = [it for it in edits() if is_mutant(it)]
    chosen = drawn(every, number, seed)
    print(f"drawn by {seed} of {len(every)} edits")
    check_unedited(chosen, args)
    plan = batches(by_control(it) if it.control else around_line(it) for it in chosen)
    found = returned([(accepted, it) for it in plan], args.jobs)
    failed = {it.file for it in chosen if it.control} & {
        it.file for it in found if it.said
    }
    for it in sorted(found, key=lambda it: (bool(it.said), it.file in failed)):
        end = "refused: the edit may be hollow" if it.said else "accepted"
        end = "REFUSED" if it.file in failed else end
        print(f"{it.file}: control {end}", *it.said, sep="\n  ")
    print(controls_counted({it.file: it.said for it in found}))
    return not failed
