#!/bin/sh
# Writes the files on which the lexer is measured into a folder, 16 MiB each.
set -e
python3 - "$1" <<'PY'
import pathlib, sys
folder = pathlib.Path(sys.argv[1])
SIZE = 16 * 1024 * 1024
def lines(name, text):
    """As many of these lines as fit, then a comment up to the size."""
    body = text * (SIZE // len(text))
    (folder / f"{name}.rb").write_text(body + "#" * (SIZE - len(body)))
lines("lines", 'total = total + item * 2 - 1\nputs "the total is", total\nif total > 100 then total = 0 end # enough\n')
lines("marks", "+ - * / % = == => ! != < <= << <<= <=> > >= += -= *= /= %= && &&= | || ||= ? : :: . , ; ( ) [ ]\n")
lines("operators", "a=b+c*d-e/f%g<h&&i||!j\n")
lines("nested", '"a#{' * 50 + "x" + '}b"' * 50 + "\n")
words = "words of one long text "
text = words * (SIZE // len(words))
(folder / "text.rb").write_text('"' + text[:SIZE - 2].ljust(SIZE - 2) + '"')
PY
