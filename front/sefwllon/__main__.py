"""The start of the command: an interrupt ends it in a word, also while its modules are read."""

import sys

INTERRUPTED = 130


def main() -> int:
    try:
        from .cli import main as run

        return run()
    except KeyboardInterrupt:
        print("sefwllon: interrupted", file=sys.stderr)
        return INTERRUPTED


if __name__ == "__main__":
    sys.exit(main())
