"""What the hook and the scan have to say. It is written out here: none of it comes from
the programs or the scripts."""

from dataclasses import dataclass

# Why a name is refused.
DEVICE = "Windows device-names may have side-effects and are not allowed"
ILLEGAL = (
    "Trailing spaces or dots, and the following characters anywhere, are forbidden in "
    "Windows paths, "
    'along with non-printable ones: <>:"|?*'
)
DOT_GIT = "The .git name may never be used"
SYMLINK = "The .gitmodules file must not be a symlink"

# What to do about it, which the hook says last.
RENAME_THE_REF = (
    "Push a refused reference under another name: "
    "git push origin YOURS:refs/heads/OTHER\n"
)
ALLOW_REPLACEMENTS = (
    "An administrator can allow refs/replace/: git config names.replace true\n"
)
RENAME_THE_FILE = (
    "Rename a refused file or directory in the commit that adds it, "
    "not in a later one.\n"
)
MAKE_IT_A_FILE = (
    "Make .gitmodules a file, not a symlink, in the commit that changes it.\n"
)
CORRECT_THE_FILE = (
    "Correct a .gitmodules file, or rename a submodule in it, "
    "in the commit that changes it.\n"
)
# (after a name of which no commit of the push is known)
IT_MAY_BE_OLD = (
    "If no commit of your push adds a name, the server has it already: "
    "first push one commit on top of the server's branch that changes it.\n"
)


def change(oldest):
    """How the oldest of the commits that are named is changed, with the others."""
    short = oldest[:12]
    return (
        f"To change these commits: git rebase -i --rebase-merges {short}~1 BRANCH "
        '(or --root BRANCH, if it has no parent). Write "edit" in the line of each, '
        'or a line "break" after that of a merge. '
        "Where it stops: git mv OLD NEW, git commit --amend --no-edit, "
        "git rebase --continue. "
        f'If it stops at {short} with "invalid path": git rebase --quit, '
        f"git switch -c NEW {short}~1, git checkout --no-overlay {short} -- ., "
        f"git commit -C {short}, git cherry-pick {short}..BRANCH.\n"
    )


LIST_ALL = (
    "This lists all in your clone, if gix-validate is installed there: "
    "git scan-names BRANCH --not --remotes\n"
)


ACCEPT = (
    "An administrator can accept a name that only Windows forbids: "
    "git config --add names.accept NAME\n"
)


NOT_THE_HOOK = (
    "push refused: {} is not the hook: link the file pre-receive instead of copying "
    "it, or push again if it was just replaced\n"
)
UNCHECKED = "push refused: the server could not check the names"
FILE_SYSTEMS = "give windows, hfs or ntfs, separated by commas, or none"


@dataclass(frozen=True)
class Result:
    """How a command ended, and all that it wrote."""

    status: int
    said: str

    @property
    def ending(self):
        """This without what was said before the last line."""
        return Result(self.status, "".join(self.said.splitlines(keepends=True)[-1:]))


ACCEPTED = ALL_IS_WELL = Result(0, "")


# The lines about what is refused: where it is, and then why. The hook also says what
# offends, and which commit has it first.
def bad_name(path, fault, because=None, commit=None):
    return f"{path}: {fault}\n" + details(because, commit)


def bad_submodule(path=".gitmodules", commit=None):
    fault = "Submodules names must not contains '..'"
    return f'{path}: submodule "../x": {fault}\n' + details(None, commit)


def details(because, commit):
    said = [f'because of "{because}"'] if because else []
    said += [f"first in commit {commit[:12]}"] if commit else []
    return f"    {', '.join(said)}\n" if said else ""


def bad_ref(ref):
    return f'{ref}: Reference name is reserved and cannot be used: "{ref}"\n'


# How a push ends.
def refused(line, *advice):
    """For one name, with these words on how to go on."""
    return Result(1, line + "push refused: 1 name is not allowed\n" + "".join(advice))


def not_checked(reason, *help, status=2):
    """Refused, since a part of the check failed."""
    return Result(status, "".join([f"{UNCHECKED}: {reason}\n", *help]))


MORE_MEMORY = (
    "A process may use {} MB of memory: an administrator can raise names.megabytes.\n"
)
MORE_TIME = (
    "A process may use {} s, and one more for each 4000 objects of the push: "
    "an administrator can raise names.seconds.\n"
)
FULL_CLONE = (
    "A commit is missing. If your clone is shallow, complete it first: "
    "git fetch --unshallow\n"
)


# How a scan ends.
def found(*lines):
    return Result(1, "".join(lines))


def scan_failed(reason):
    return Result(2, f"git scan-names: {reason}\n")


def misused(reason):
    return scan_failed(f"{reason} (git scan-names -h lists the options)")
