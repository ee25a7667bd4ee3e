"""usage: python3 -m ongq FILE DAY

Writes what `ongq at FILE DAY` writes, without the program. Ends with 0; with 5 where the file is none; with 2 at other words.
"""
from __future__ import annotations

import io
import sys

from .days import day_of
from .saved import read, record_text


def main(words: list[str]) -> int:
    if len(words) != 2:
        print((__doc__ or "").splitlines()[0], file=sys.stderr)
        return 2
    try:
        saved, day = read(words[0]), day_of(words[1])
    except (OSError, ValueError) as why:
        print(f"ongq: {words[0]}: {why}", file=sys.stderr)
        return 5
    with io.TextIOWrapper(sys.stdout.buffer, encoding="utf-8", newline="") as output:
        output.write(record_text([column.name for column in saved.columns]))
        output.writelines(record_text([str(value) for value in row]) for row in saved.rows(day))
    return 0


if __name__ == "__main__":
    sys.exit(main(sys.argv[1:]))
