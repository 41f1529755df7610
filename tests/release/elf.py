"""What a program or a shared object of a release may not have."""

import re

from tests.release.commands import run

# A library or a loader that it needs, code that the loader changes, a place to look for
# libraries, and a stack that can be executed.
FORBIDDEN = r"INTERP|NEEDED|TEXTREL|RUNPATH|RPATH|GNU_STACK[^\n]*E"


def faults_of(file):
    """Returns a list of what is wrong with a file, and what readelf says of it."""
    status, said = run("readelf", "-hldW", file)
    faults = re.findall(FORBIDDEN, said)
    if status:
        faults.append(f"readelf: status {status}")
    if "GNU_RELRO" not in said:
        faults.append("no GNU_RELRO")
    return faults, said
