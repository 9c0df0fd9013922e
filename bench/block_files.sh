#!/bin/sh
# Writes scripts into a folder whose last block uses ten outer names a million times, and 100,000 names twice.
set -e
python3 - "$1" <<'PY'
import pathlib, sys
folder = pathlib.Path(sys.argv[1])
def block(name, names, uses):
    """A script that sets these names, and a block that uses them in turn."""
    made = "".join(f"{it} = 1\n" for it in names)
    used = "".join(f"{names[it % len(names)]}\n" for it in range(uses))
    (folder / f"{name}.rb").write_text(f"{made}f do\n{used}end\n")
block("uses", [f"a{it}" for it in range(10)], 1_000_000)
block("names", [f"a{it}" for it in range(100_000)], 200_000)
PY
