"""Prints the rows of a fax that are found and those that are lost, and writes a copy in MMR: left.py FAX.tif COPY.tif"""

import sys

import faxpages

left = []
for page in faxpages.open(sys.argv[1]):
    for found in page.salvaged_rows():
        if isinstance(found, faxpages.Row):
            print("row", found.page, found.number)
        else:
            print("lost", page.number, found.first, found.rows, found.fault)
    left.append(page.salvaged())
faxpages.write(left, sys.argv[2], coding="mmr")
