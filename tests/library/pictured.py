#!/usr/bin/env python3
"""Writes the first page of a file as raw PBM by Pillow, whose types are known where Pillow is.

    pictured.py FILE OUT"""

import sys

import faxpages


def main() -> None:
    """Writes it."""
    image = faxpages.open(sys.argv[1]).page(0).image()
    image.save(sys.argv[2], format="PPM")


if __name__ == "__main__":
    main()
