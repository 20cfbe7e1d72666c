"""Runs random programs of texts and sequences by a compiler, and says where it does something else than this reader says.

    python3 tools/reader/random_owned.py SEED COUNT | python3 tools/reader/against.py COMMAND ..

COMMAND is what stands before `run t.nim`; it is called once as `run` and once as `mean` for each program and heap. Programs whose
units are spent are left out.
"""
from __future__ import annotations

import argparse
import json
import subprocess
import sys
import tempfile
from pathlib import Path
from typing import List, NamedTuple

from heap_rows import BALLAST, BALLAST_BYTES, USUAL_HEAP

WAYS = ('run', 'mean')
LONGEST_SECONDS = 60


class Ran(NamedTuple):
    status: int
    out: str
    err: str


def ran(command: List[str], way: str, folder: Path, source: str, standard_input: str, heap: int) -> Ran:
    """With a heap that is smaller than a command takes, the source stands behind the ballast."""
    if heap < USUAL_HEAP:
        source, heap = BALLAST + source, heap + BALLAST_BYTES
    (folder / 't.nim').write_bytes(source.encode('latin-1'))
    process = subprocess.run([*command, way, 't.nim', '--heap=%d' % heap], cwd=folder, input=standard_input.encode('latin-1'),
                             capture_output=True, timeout=LONGEST_SECONDS, check=False)
    return Ran(process.returncode, process.stdout.decode('latin-1'), process.stderr.decode('latin-1'))


def main() -> None:
    parser = argparse.ArgumentParser(description='Compares a compiler with what this reader says of random programs.')
    parser.add_argument('command', nargs='+')
    command = [str(Path(word).resolve()) if '/' in word else word for word in parser.parse_args().command]
    runs = differing = 0
    with tempfile.TemporaryDirectory() as folder:
        for line in sys.stdin:
            source, standard_input, heap, _, status, out, err, _, _ = json.loads(line)
            if status is None:
                continue
            for way in WAYS:
                runs += 1
                got = ran(command, way, Path(folder), source, standard_input, heap)
                if got != Ran(status, out, err):
                    differing += 1
                    print('%s with a heap of %d: wanted %r, got %r\n%s' % (way, heap, (status, out, err), tuple(got), source))
    print('%d runs, %d differ' % (runs, differing))
    sys.exit(1 if differing else 0)


if __name__ == '__main__':
    main()
