"""What faxpages-archive does, by its words."""

from __future__ import annotations

import argparse
import io
import json
import os
import shutil
import sqlite3
import sys
from typing import Callable, Dict, Iterable, List, Optional

from . import _files as files
from . import _walk as walk
from ._database import COLUMNS, Damaged, TableError, WrongTable, text_of
from ._fax import GOOD, NOT_READ, Found, Job, NoEngine, NoWorker
from ._marks import Owner
from ._run import Run, Stopped, say, shown, signals, state_of, told
from ._table import Table, job_of, where_of
from ._words import words_of

WORDS = 2


def _do_tree(words: argparse.Namespace) -> int:
    """check and convert."""
    tree = os.path.abspath(os.fsencode(words.tree))
    job = Job(tree, follow=words.follow, lost=words.command == "check" and words.lost)
    if job.lost and not shutil.which("faxpages"):
        raise TableError("the program faxpages is not on the PATH, and counts the rows for --lost")
    if not os.path.isdir(tree):
        raise TableError(f"there is no folder {shown(tree)}")
    if words.command == "convert":
        target = os.path.abspath(os.fsencode(words.target))
        job = Job(tree, target, words.to, words.order, words.k, words.strip, words.align, words.fields, words.follow,
                  adopt=words.adopt, salvage=words.salvage)
        walk.refuse_one_in_the_other(tree, target)
        if job.fields and not shutil.which("tiffdump"):
            raise TableError("tiffdump is not installed: Debian has it in libtiff-tools")
    words.table = os.path.abspath(words.table)
    with _opened(words, job) as table:
        table.set_job(job_of(job, words.share), table.where() or where_of(job))
        if job.target is not None:
            files.make_target(job.target, job.tree)
            walk.refuse_one_in_the_other(tree, job.target)
        return Run(words, job._replace(owner=table.owner() if job.target is not None else Owner(table.number())), table).do()


def _opened(words: argparse.Namespace, job: Job) -> Table:
    """The table; one that is damaged is made anew, where the words ask for that."""
    try:
        return Table(words.table)
    except Damaged as error:
        if not words.renew:
            raise TableError(f"{error}; --renew makes it anew, and keeps this one") from None
        from . import _renewing as renewing  # nothing else needs it

        aside = renewing.renew(words.table, job)
        say(f"{shown(str(error))}; it is kept as {shown(aside)}, and its faxes are done again")
        return Table(words.table)


def _do_table(words: argparse.Namespace) -> int:
    """table: all rows, or what they come to."""
    with Table(words.name, new=False) as table:
        last = table.last_run()
        out = io.TextIOWrapper(sys.stdout.buffer, "utf-8", "surrogateescape", newline="", write_through=False)
        if words.summary or words.prometheus:
            from . import _merge as merging  # nothing else needs it

            found = merging.summary(table)
            out.write(json.dumps(found) + "\n" if words.summary else merging.prometheus(found))
        else:
            _print_rows(words, out, (row for row in table.rows() if _is_asked_for(words, row)))
            if words.faulty and not words.csv and not words.json:
                out.writelines(f"{shown(row.path)}: the only copy: {told(row).partition(': ')[2]}\n"
                               for row in table.damaged_copies())
        out.flush()
        out.detach()
        unknown = table.row_counts()["bad_rows_unknown"] if words.mended else 0
        if unknown:
            say(f"{words.name}: {unknown} faxes were read by a version before 1.15, which did not count bad rows: "
                "--again all of check or convert counts them")
        if last is None or not last.finished():
            say(f"{words.name}: {state_of(table)}")
            return NOT_READ
    return NOT_READ if unknown else GOOD


def _is_asked_for(words: argparse.Namespace, row: Found) -> bool:
    """Whether a row is to be printed."""
    if words.mended:
        return bool(row.bad_rows)
    return not words.faulty or row.status != GOOD or bool(row.why)


def _print_rows(words: argparse.Namespace, out: io.TextIOWrapper, rows: Iterable[Found]) -> None:
    """Rows as CSV, as lines of JSON, or as a line of text each. A byte of a name that is no UTF-8 is itself in CSV, and
    a lone surrogate in JSON."""
    if words.csv:
        import csv

        plain = csv.writer(out, lineterminator="\n")
        quoted = csv.writer(out, lineterminator="\n", quoting=csv.QUOTE_ALL)
        plain.writerow(COLUMNS)
        for row in rows:
            path = text_of(row.path)
            # A name may have the end of a line of another system, which the writer quotes only as its own.
            (quoted if "\r" in path else plain).writerow((path, *row[1:]))
    elif words.json:
        out.writelines(json.dumps(dict(row._asdict(), path=text_of(row.path))) + "\n" for row in rows)
    else:
        out.writelines(f"{shown(row.path)}: {_mended(row) if words.mended else told(row)}\n" for row in rows)


def _mended(row: Found) -> str:
    """What a row says of the bad rows that receivers counted."""
    return f"mended by the receiver: {row.bad_rows} {'row' if row.bad_rows == 1 else 'rows'}"


def _do_merge(words: argparse.Namespace) -> int:
    """merge."""
    from . import _merge as merging  # nothing else needs it

    return merging.merge(words)


def _do_verify(words: argparse.Namespace) -> int:
    """verify."""
    from . import _verify as verifying  # nothing else needs it

    return verifying.verify(words)


_DO: Dict[str, Callable[[argparse.Namespace], int]] = {
    "check": _do_tree, "convert": _do_tree, "table": _do_table, "merge": _do_merge,
    "verify": _do_verify}


def _said(error: object, status: int) -> int:
    """Says in one line what went wrong."""
    say(shown(str(error)))
    return status


def _done(words: argparse.Namespace) -> int:
    """Does a command, and writes out what it says."""
    status = _DO[words.command](words)
    sys.stdout.flush()
    return status


def _has_output() -> bool:
    """Whether the output and the error stream are open. If not, files that are opened would take their places."""
    for number in range(3):
        try:
            os.fstat(number)
        except OSError:
            os.open(os.devnull, os.O_RDWR)
            if number:
                return False
    return True


def _drop_output() -> None:
    """Has what could not be written to the output not be tried again at the end."""
    try:
        sys.stdout.flush()
    except OSError:
        os.dup2(os.open(os.devnull, os.O_WRONLY), 1)


def main(given: Optional[List[str]] = None) -> int:
    """The command; its status."""
    if not _has_output():
        return _said("the output or the error stream is closed", NOT_READ) if sys.stderr else NOT_READ
    words = words_of(given)
    try:
        signals.begin()
        status = _status(words)
        signals.end()
        return status
    except Stopped as stopped:
        # What was found is in the table. Workers end by themselves.
        signals.end()
        sys.stderr.write("faxpages-archive: stopped; the same words go on\n")
        sys.stderr.flush()
        os.kill(os.getpid(), stopped.args[0])
        return NOT_READ


def _status(words: argparse.Namespace) -> int:
    """Does what the words ask for: the status, whatever came."""
    try:
        return _done(words)
    except (walk.WrongTarget, WrongTable) as error:
        return _said(error, WORDS)
    except BrokenPipeError:
        os.dup2(os.open(os.devnull, os.O_WRONLY), 1)
        return NOT_READ
    except sqlite3.Error as error:
        return _said(f"{getattr(words, 'table', getattr(words, 'name', '?'))}: {error}", NOT_READ)
    except OSError as error:
        _drop_output()
        named = f"{os.fsdecode(error.filename)}: " if isinstance(error.filename, (str, bytes)) else ""
        return _said(f"{named}{error.strerror or error}", NOT_READ)
    except (TableError, NoWorker, NoEngine) as error:
        return _said(error, NOT_READ)
    except Exception as error:  # a table that is damaged, or what else was not thought of
        return _said(f"{type(error).__name__}: {error}", NOT_READ)
