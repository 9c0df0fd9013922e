#!/bin/sh
# Writes sources of many definitions into a folder, each of 4, 8 and 16 MiB, on which the parser is measured.
set -e
python3 - "$1" <<'PY'
import pathlib, sys
folder = pathlib.Path(sys.argv[1])
MEBIBYTE = 1024 * 1024
def source(name, piece):
    """As many numbered pieces as fit into each size."""
    text, number = [], 0
    size = 0
    sizes = {4: None, 8: None, 16: None}
    for mebibytes in sizes:
        while True:
            more = piece(number)
            if size + len(more) > mebibytes * MEBIBYTE:
                break
            text.append(more)
            size += len(more)
            number += 1
        (folder / f"{name}_{mebibytes}.rb").write_text("".join(text))
source("methods", lambda i: "def same(a)\n  a + 1\nend\n")
source("classes", lambda i: "class C0\nend\n" if i == 0 else f"class C{i} < C{i - 1}\nend\n")
source("variables", lambda i: f"v{i} = 1\n" if i == 0 else f"v{i} = v{i - 1}\n")
source("constants", lambda i: f"K{i} = {i}\n")
source("ordinary", lambda i: f"def method_{i % 1000}(left, right)\n  return right if left < {i % 97}\n  sum = left * 2 + right\n  [sum, left].each {{ |x| puts x }}\nend\n")
PY
