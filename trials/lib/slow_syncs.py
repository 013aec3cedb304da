"""Programs whose syncs take longer than the disk's."""
import os
import subprocess
from collections.abc import Iterator
from contextlib import contextmanager
from pathlib import Path


@contextmanager
def slow_syncs(work: Path, wait: int) -> Iterator[None]:
    """Programs that are started meanwhile have syncs that take so many microseconds longer. The library is compiled into a folder."""
    library = work / "slow_syncs.so"
    source = Path(__file__).resolve().parent / "slow_syncs.c"
    subprocess.run(["cc", "-O1", "-shared", "-fPIC", "-o", library, source, "-ldl"], check=True)
    os.environ |= {"LD_PRELOAD": str(library), "SLOW_SYNCS": str(wait)}
    try:
        yield
    finally:
        del os.environ["LD_PRELOAD"], os.environ["SLOW_SYNCS"]
