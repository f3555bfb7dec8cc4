"""The words of faxpages-archive."""

from __future__ import annotations

import argparse
import os
from typing import Callable, List, Optional

from . import _walk as walk
from .. import version
from ._lacks import NAMES


def _at_least(kind: Callable[[str], float], least: float) -> Callable[[str], float]:
    """What reads a number of this kind, from a least one on."""
    def number(text: str) -> float:
        value = kind(text)
        if not least <= value <= 0xFFFFFFFF:
            raise ValueError(text)
        return value

    number.__name__ = "number"
    return number


def _given_up(text: str) -> List[str]:
    """What may be lacking of a copy whose fax is deleted."""
    found = text.split(",")
    if not set(found) <= set(NAMES):
        raise argparse.ArgumentTypeError(f"to be of {', '.join(NAMES)}: {text!r}")
    return found


def _engine_words(command: argparse.ArgumentParser) -> None:
    command.add_argument("--table", required=True, metavar="TABLE.sqlite", help="where the rows are kept")
    engines = command.add_mutually_exclusive_group()
    engines.add_argument("--dask", action="store_true", help="on a local cluster of Dask")
    engines.add_argument("--scheduler", metavar="ADDRESS", help="on the cluster of this scheduler of Dask")
    command.add_argument("--processes", type=_at_least(int, 1), metavar="N", help="by so many workers (1)")
    command.add_argument("--timeout", type=_at_least(float, 0.001), metavar="SECONDS", help="the most for one fax")


def _tree_words(command: argparse.ArgumentParser, again: List[str]) -> None:
    _engine_words(command)
    command.add_argument("--again", choices=again, help="do those again that could not be read, these and the faulty "
                                                        "ones, those whose copy is to be read again, or all")
    command.add_argument("--share", type=walk.share_of, metavar="I/N", help="do one of N shares, I from 0")
    command.add_argument("--follow", action="store_true", help="go through symbolic links")
    command.add_argument("--renew", action="store_true", help="make a table that is damaged anew, and keep the old one")
    command.add_argument("--gone", action="store_true", help="go on also where more than a tenth of the faxes is gone")
    command.add_argument("--names", action="store_true", help="say of each bad fax what is wrong with it")
    command.add_argument("--faults-ok", action="store_true", help="end with status 0 also where faxes have faults")


def _convert_words(convert: argparse.ArgumentParser) -> None:
    convert.add_argument("tree", metavar="TREE")
    convert.add_argument("target", metavar="TARGET")
    convert.add_argument("--to", required=True, choices=["pbm", "mh", "mr", "mmr"])
    convert.add_argument("--order", type=int, choices=[1, 2], default=1)
    convert.add_argument("--k", type=_at_least(int, 1), default=4)
    convert.add_argument("--strip", type=_at_least(int, 1), metavar="ROWS")
    convert.add_argument("--align", action="store_true")
    convert.add_argument("--fields", action="store_true", help="write NAME.fields beside each copy, by tiffdump")
    convert.add_argument("--salvage", action="store_true", help="write what can be salvaged of faulty faxes, too")
    convert.add_argument("--adopt", action="store_true", help="take over files that have the bytes of a copy")
    convert.add_argument("--delete", action="store_true", help="delete the faxes that are copied and compared")
    convert.add_argument("--all-or-nothing", action="store_true",
                         help="delete nothing where one is not good, copied and compared")
    convert.add_argument("--give-up", type=_given_up, default=[], metavar="WHAT",
                         help=f"delete also faxes whose copies lack this, of {','.join(NAMES)}")


def _parser() -> argparse.ArgumentParser:
    parser = argparse.ArgumentParser(
        "faxpages-archive", description="Checks or converts all faxes of an archive.", allow_abbrev=False)
    parser.add_argument("--version", action="version", version=f"faxpages-archive {version()}")
    commands = parser.add_subparsers(dest="command", required=True, metavar="COMMAND")
    check = commands.add_parser("check", help="check the faxes below TREE", allow_abbrev=False)
    check.add_argument("tree", metavar="TREE")
    check.add_argument("--lost", action="store_true", help="count how many rows of faulty faxes are left, and lost")
    _tree_words(check, ["unread", "faulty", "all"])
    convert = commands.add_parser("convert", help="convert them, into the same names below TARGET", allow_abbrev=False)
    _convert_words(convert)
    _tree_words(convert, ["unread", "faulty", "copies", "all"])
    table = commands.add_parser("table", help="print a table", allow_abbrev=False)
    table.add_argument("name", metavar="TABLE.sqlite")
    form = table.add_mutually_exclusive_group()
    form.add_argument("--csv", action="store_true", help="all rows as CSV")
    form.add_argument("--json", action="store_true", help="a line of JSON for each row")
    form.add_argument("--summary", action="store_true", help="what they come to, as JSON")
    form.add_argument("--prometheus", action="store_true", help="the same as text for Prometheus")
    some = table.add_mutually_exclusive_group()
    some.add_argument("--faulty", action="store_true", help="the bad faxes alone; by itself, a line of text for each")
    some.add_argument("--mended", action="store_true", help="the same of the faxes whose receiver counted bad rows")
    verify = commands.add_parser("verify", help="compare the only copies with their digests", allow_abbrev=False)
    verify.add_argument("target", metavar="TARGET")
    _engine_words(verify)
    verify.add_argument("--gone", action="store_true", help="forget the copies that are gone")
    verify.add_argument("--names", action="store_true", help="say of each copy that is not good what is wrong with it")
    merge = commands.add_parser("merge", help="make one table of parts", allow_abbrev=False)
    merge.add_argument("name", metavar="TABLE.sqlite")
    merge.add_argument("parts", nargs="+", metavar="PART.sqlite")
    return parser


def words_of(given: Optional[List[str]]) -> argparse.Namespace:
    """The words, or the usage and status 2."""
    parser = _parser()
    words = parser.parse_args(given)
    if words.command == "table":
        form = words.csv or words.json or words.summary or words.prometheus
        some = "--faulty" if words.faulty else "--mended" if words.mended else ""
        if not (form or some):
            parser.error("table needs one of --csv, --json, --summary, --prometheus, --faulty and --mended")
        if some and (words.summary or words.prometheus):
            parser.error(f"{some} is for --csv and --json, or stands alone")
    if words.command == "verify" and words.scheduler is not None and words.processes is not None:
        parser.error("--processes is not for a scheduler, which has its own")
    if words.command in ("check", "convert"):
        _look_at_tree_words(parser, words)
    return words


def _look_at_tree_words(parser: argparse.ArgumentParser, words: argparse.Namespace) -> None:
    """Adds the share, and refuses words that are each right, and not together."""
    if words.share is None:
        try:
            words.share = walk.share_in_array(os.environ)
        except walk.WrongShare as error:
            parser.error(str(error))
    if words.scheduler is not None and words.processes is not None:
        parser.error("--processes is not for a scheduler, which has its own")
    if words.command == "check":
        return
    if words.align and words.to not in ("mh", "mr"):
        parser.error("--align is for mh and mr")
    if words.give_up and not words.delete:
        parser.error("--give-up is for --delete")
    if words.all_or_nothing and not words.delete:
        parser.error("--all-or-nothing is for --delete")
    if words.faults_ok and words.delete:
        parser.error("--faults-ok is not for --delete, whose status 0 says that all faxes are deleted")
