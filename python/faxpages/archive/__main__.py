"""The command faxpages-archive: python3 -I -m faxpages.archive."""

import sys

from . import main

if __name__ == "__main__":
    sys.exit(main())
