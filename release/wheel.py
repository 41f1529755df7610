"""Packs a wheel. The same input gives the same bytes; the files' date is that of SOURCE_DATE_EPOCH.

    wheel.py FOLDER OUT     packs a folder, and names the wheel by the folder and the tags of its file WHEEL

In the source archive for Python this is what pip calls to build a wheel there: of the folder `wheel`, and of a shared object
that the C compiler makes, of the block of machine code for the processor, or else of the portable form.
"""
import base64
import hashlib
import os
import platform
import re
import shutil
import subprocess
import sys
import sysconfig
import tempfile
import time
import zipfile
from pathlib import Path

# The processors that have a block. (macOS and Linux have two names for one of them.)
PROCESSORS = ("x86_64", "aarch64", "arm64")


def packed(folder, out):
    """Packs a folder, and returns the name of the wheel."""
    info = next(folder.glob("*.dist-info"))
    tags = re.findall("(?m)^Tag: .*-(.*)$", (info / "WHEEL").read_text())
    files = {
        str(path.relative_to(folder)): path.read_bytes()
        for path in sorted(folder.rglob("*"))
        if path.is_file()
    }
    record = f"{info.name}/RECORD"
    digests = (
        base64.urlsafe_b64encode(hashlib.sha256(data).digest()).rstrip(b"=").decode()
        for data in files.values()
    )
    lines = [
        f"{name},sha256={digest},{len(files[name])}\n"
        for name, digest in zip(files, digests)
    ]
    files[record] = f"{''.join(lines)}{record},,\n".encode()
    name = f"{info.stem}-py3-none-{'.'.join(tags)}.whl"
    with zipfile.ZipFile(out / name, "w") as wheel:
        for path, data in files.items():
            entry = zipfile.ZipInfo(
                path,
                time.gmtime(int(os.environ.get("SOURCE_DATE_EPOCH", 946684800)))[:6],
            )
            entry.create_system = 3  # Unix, wherever this runs
            entry.external_attr = (0o100755 if path.endswith(".so") else 0o100644) << 16
            wheel.writestr(entry, data)
    return name


def build_wheel(
    wheel_directory, config_settings=None, metadata_directory=None
):  # (PEP 517 gives the names)
    """Builds the wheel for this machine in the folder of the source archive."""
    source = "gix_validate.S" if platform.machine() in PROCESSORS else "gix_validate.c"
    with tempfile.TemporaryDirectory() as room:
        folder = Path(shutil.copytree("wheel", f"{room}/wheel"))
        library = folder / "gix_validate" / "libgix_validate_c.so"
        compiler = os.environ.get("CC", "cc")
        words = ["-shared", "-fPIC", "-O2", "-o", library, source]
        subprocess.run([compiler, *words], check=True)
        tags = next(folder.glob("*.dist-info")) / "WHEEL"
        system = re.sub("[-.]", "_", sysconfig.get_platform())
        tags.write_text(
            re.sub("(?m)^Tag: .*\n", "", tags.read_text()) + f"Tag: py3-none-{system}\n"
        )
        return packed(folder, Path(wheel_directory))


if __name__ == "__main__":
    packed(Path(sys.argv[1]), Path(sys.argv[2]))
