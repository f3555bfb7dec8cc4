"""Prints which version of faxpages is installed: python3 -I -m faxpages --version. Without -I Python looks for modules
in the current folder first."""

import sys

from . import version


def main() -> int:
    """Prints the version, or which other commands there are."""
    if sys.argv[1:] == ["--version"]:
        print(f"faxpages {version()}")
        return 0
    print("usage: python3 -I -m faxpages --version\nThe commands for archives: python3 -I -m faxpages.archive --help",
          file=sys.stderr)
    return 2


if __name__ == "__main__":
    sys.exit(main())
