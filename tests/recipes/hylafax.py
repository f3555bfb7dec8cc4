"""faxpages-hylafax over an administrator's FaxDispatch and templates: again, over an earlier recipe, and taken back."""

from __future__ import annotations

import os
import re
import shutil
from typing import Iterator

from tests import Claim
from tests.recipes.room import Room, Tests

LANGUAGES = ["de", "en", "office"]
DISPATCH = b"SENDTO=office\nTEMPLATE=de"
# What the recipe added before there was the script.
OLDER = rb"""TEMPLATE=faxpages
FAXPAGES=$(faxpages check "$FILE" 2>&1)
case $? in
0) ;;
1) MSG="${MSG:+$MSG; }$(echo "$FAXPAGES" | tail -n 1)" ;;
*)
    FAXPAGES="not checked: $FAXPAGES $(cat "$FILE" 2>&1 >/dev/null)"
    printf 'To: %s\nSubject: faxpages cannot check %s\n\n%s\n' "$TOADDR" "$FILE" "$FAXPAGES" |
        $SENDMAIL -f"$FROMADDR" -oi "$TOADDR"
    ;;
esac
export FAXPAGES MSG
"""
# What FaxDispatch does, and what a template gets of it.
NO_ROOM = "HYLAFAX_TMPDIR: parameter null or not set"
RUN = """cd "$1" && FILE=fax.tif && TEMPLATE=en && . etc/FaxDispatch && echo "$TEMPLATE" "$FAXPAGES" "$MSG" &&
    grep -c FAXPAGES "etc/templates/$TEMPLATE/faxrcvd-success.txt" """


def state(room: Room) -> dict[str, bytes]:
    """All files below etc, with what they hold."""
    return {os.path.relpath(f"{place}/{name}", room("etc")): room.get(f"{place}/{name}")
            for place, _, names in os.walk(room("etc")) for name in names}  # fmt: skip


def lay_out(room: Room, dispatch: bytes) -> dict[str, bytes]:
    """An administrator's files."""
    shutil.rmtree(room("etc"), ignore_errors=True)
    for language in LANGUAGES:
        for name in ("faxrcvd-success.txt", "faxrcvd-error.txt", "notify-done.txt", "hook.sh"):
            room.put(f"etc/templates/{language}/{name}", f"{name} in {language}\n".encode())
    if dispatch:
        room.put("etc/FaxDispatch", dispatch)
    return state(room)


def scripted(room: Room, _: str) -> Iterator[Claim]:
    room.sample("damaged-fourth-page.tif", "fax.tif")
    before = lay_out(room, DISPATCH + b"\n")
    yield "added", room.call("faxpages-hylafax", "etc"), (0, b"", "")
    added = state(room)
    yield "the administrator's files", {name: added.get(name) for name in before if name != "FaxDispatch"} | {
        "FaxDispatch": added["FaxDispatch"][: len(DISPATCH) + 1]}, before  # fmt: skip
    report = "pages 3 rows 38\nfault page 3 row 5: OutOfRow\n(pages and rows numbered from 0)"
    said = f"faxpages-de {report}\n\n{NO_ROOM} fault page 3 row 5: OutOfRow\n1\n"
    ran = room.call("bash", "-c", RUN, "-", room(""))
    yield "it runs", (ran[0], re.sub(r"(?m)^.*: (HYLAFAX_TMPDIR: )", r"\1", ran[1].decode())), (0, said)
    yield "again", (room.call("faxpages-hylafax", "etc"), state(room)), ((0, b"", ""), added)
    yield "nested", [name for name in added if "/faxpages-" in name.replace("templates/faxpages-", "", 1)], []
    yield "taken back", (room.call("faxpages-hylafax", "--remove", "etc"), state(room)), ((0, b"", ""), before)
    yield "no folder is left", sorted(os.listdir(room("etc/templates"))), LANGUAGES
    yield "taken back again", (room.call("faxpages-hylafax", "--remove", "etc"), state(room)), ((0, b"", ""), before)
    yield from changed(room)
    yield from in_other_states(room)
    yield "nothing is left", (room.left(), [name for name in room.names("etc") if name.startswith(".")]), ([], [])


def changed(room: Room) -> Iterator[Claim]:
    """What an administrator has changed in a copy stays; what changed in a template comes into its copy."""
    lay_out(room, b"")
    room.call("faxpages-hylafax", "etc")
    copy = "etc/templates/faxpages-de/faxrcvd-success.txt"
    room.put(copy, b"mine\n")
    room.put("etc/templates/en/faxrcvd-success.txt", b"newer\n")
    room.put("etc/templates/faxpages-fr/faxrcvd-success.txt", b"mine too\n")
    room.put("etc/templates/fr/faxrcvd-success.txt", b"in French\n")
    said = f"faxpages-hylafax: ./{copy} stays: it was changed\n"
    other = "faxpages-hylafax: ./etc/templates/faxpages-fr stays: it is not of this script\n"
    yield "a copy was changed", room.call("faxpages-hylafax", "etc"), (1, b"", said + other)
    kept = [room.get(name) for name in (copy, "etc/templates/faxpages-fr/faxrcvd-success.txt")]
    yield "they stay", kept, [b"mine\n", b"mine too\n"]
    newer = room.get("etc/templates/faxpages-en/faxrcvd-success.txt")
    yield "a newer template", newer, b"newer\n\nfaxpages check:\n$FAXPAGES\n"
    status, told = room.call("faxpages-hylafax", "--remove", "etc")[::2]
    yield "a changed copy stays", (status, told.splitlines()[:1], room.get(copy)), (1, [said.rstrip()], b"mine\n")
    there = sorted(name for name in os.listdir(room("etc/templates")) if name.startswith("faxpages-"))
    yield "and nothing else", (there, os.path.exists(room("etc/FaxDispatch"))), (["faxpages-de", "faxpages-fr"], False)


def in_other_states(room: Room) -> Iterator[Claim]:
    """An older recipe, once and twice; a last line without an end; a part of the lines; no templates."""
    for times in (1, 2):
        before = lay_out(room, DISPATCH + b"\n" + OLDER * times)
        yield f"the older lines, {times}", room.call("faxpages-hylafax", "etc"), (0, b"", "")
        yield f"the older lines, {times}: gone", room.get("etc/FaxDispatch").count(b"faxpages check"), 1
        room.call("faxpages-hylafax", "--remove", "etc")
        yield f"the older lines, {times}: back", state(room), before | {"FaxDispatch": DISPATCH + b"\n"}
    lay_out(room, DISPATCH)
    room.call("faxpages-hylafax", "etc")
    yield "a last line without its end", room.get("etc/FaxDispatch").startswith(DISPATCH + b"\n#"), True
    whole = room.get("etc/FaxDispatch")
    room.put("etc/FaxDispatch", b"\n".join(whole.splitlines()[:-1]) + b"\n")
    cut = state(room)
    status, told = room.call("faxpages-hylafax", "etc")[::2]
    yield "a part of the lines", (status, "has a part of the lines" in told, state(room)), (3, True, cut)
    os.chmod(room("etc/FaxDispatch"), 0o640)
    room.put("etc/FaxDispatch", whole)
    room.call("faxpages-hylafax", "etc")
    yield "its permissions", os.stat(room("etc/FaxDispatch")).st_mode & 0o777, 0o640
    yield "no templates", room.call("faxpages-hylafax", "nowhere")[::2], (
        3, "faxpages-hylafax: there is no folder ./nowhere/templates\n")  # fmt: skip


EXTRA: Tests = {"HylaFAX: FaxDispatch and templates": (["sha256sum", "awk"], scripted)}
