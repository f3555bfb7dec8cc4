"""Checks, or converts, all faxes of an archive, and keeps what it found in a table of SQLite:

    faxpages-archive check TREE --table TABLE.sqlite [--processes N | --dask | --scheduler ADDRESS]
        [--timeout SECONDS] [--again unread | faulty | all] [--share I/N] [--follow] [--renew] [--gone] [--names]
        [--faults-ok] [--lost]
    faxpages-archive convert TREE TARGET --to pbm | mh | mr | mmr --table TABLE.sqlite [..] [--again copies]
        [--order 1 | 2] [--k K] [--strip ROWS] [--align] [--fields] [--adopt]
        [--delete [--all-or-nothing] [--give-up WHAT]]
    faxpages-archive table TABLE.sqlite --csv | --json | --summary | --prometheus | --faulty
    faxpages-archive verify TARGET --table TABLE.sqlite [--processes N | ..] [--timeout SECONDS] [--gone] [--names]
    faxpages-archive merge TABLE.sqlite PART.sqlite..

Also as python3 -I -m faxpages.archive. Status: 0 all faxes are good; 1 one has a fault; 2 the words are not understood;
3 something could not be read or written, or has not finished. faxpages-archive(1) tells more."""

from __future__ import annotations

from typing import List, Optional

__all__ = ["main"]


def main(given: Optional[List[str]] = None) -> int:
    """The command, with these words or those of this process; its status."""
    # Workers import this package too, and need no table and no words.
    from ._main import main as do

    return do(given)
