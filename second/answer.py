"""python3 answer.py < calls > answers: one answer line for each call line (README.md has the protocol)."""

import sys

import calls


def main():
    for line in sys.stdin:
        sys.stdout.write(calls.answer(line.rstrip("\n")) + "\n")


if __name__ == "__main__":
    main()
