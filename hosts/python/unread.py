"""Opens a file and prints what was not read of it.

    python3 unread.py FILE

Its status is 0 if every field and line was read, 1 if not, and 2 if the file can't be read.
"""

import sys

import saltighedda


def main(words):
    if len(words) != 2:
        print("usage: unread.py FILE", file=sys.stderr)
        return 2
    name = words[1]
    try:
        with open(name, "rb") as file:
            data = file.read()
    except OSError as why:
        print(f"{name}: {why.strerror}", file=sys.stderr)
        return 2
    unread = 0
    for line in saltighedda.lines(data):
        for fault in line.faults:
            print(f"{name}: {fault}")
            unread += 1
        if line.refusal:
            print(f"{name}: line {line.number}: {line.refusal}")
            unread += 1
    return 1 if unread else 0


if __name__ == "__main__":
    sys.exit(main(sys.argv))
