"""What refuses a program's calls, compiled once: refuse.c, which stands before the C library."""

import functools
import pathlib
import subprocess
import tempfile

SOURCE = pathlib.Path(__file__).resolve().parent / "refuse.c"


@functools.lru_cache(maxsize=None)
def _folder():
    return tempfile.TemporaryDirectory(prefix="ttplan-")


@functools.lru_cache(maxsize=None)
def refusing():
    """The environment in which a program's calls can be refused; to be asked for before threads are started."""
    library = f"{_folder().name}/refuse.so"
    subprocess.run(["cc", "-O2", "-shared", "-fPIC", "-o", library, str(SOURCE)], check=True)
    return {"LD_PRELOAD": library}
