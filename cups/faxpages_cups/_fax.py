"""What is printed, as a fax in a folder or for HylaFAX, for the backend faxpages of CUPS: a job is handed on once,
whole, and with a number that it names, or it is held. Only cups/faxpages imports this."""

from __future__ import annotations

import os
import re
import signal
import subprocess
import sys
from typing import Dict, Iterator, List, NamedTuple, NoReturn, Optional, Sequence
from urllib.parse import unquote

from faxpages import Fax, Page, check, write

from ._documents import count_of, documents_of
from ._ending import end_filters
from ._job import InDoubt, Job, Refused, one_line, say, seconds_of, within
from ._scratch import scratch
from ._spool import Spool

# What CUPS does after a backend ended with this status: it holds the job.
HOLD = 3
# The most seconds and pages, and the most bytes of a fax that is made.
SECONDS, PAGES = 300, 500
CODINGS, RESOLUTIONS, WIDTHS = ("mh", "mr", "mmr"), ("fine", "standard"), ("1728", "2048", "2432")
# Options that name the number, and how a title does: 'fax:' and a number up to a blank or the end.
_NUMBERS = ("faxnumber", "fax-number", "phone")
_IN_TITLE = re.compile(r"(?<![^\W_])fax:\s*(\S*)", re.IGNORECASE)
# Digits, in groups or not, and + before those of another country.
_NUMBER = re.compile(r"\+?(?:\([0-9]+\) ?)?[0-9]+(?:[ ./-]?[0-9]+)*")
_UUID = re.compile(r"urn:uuid:([0-9A-Fa-f]{8}(?:-[0-9A-Fa-f]{4}){3}-[0-9A-Fa-f]{12})")
# Where the scripts of the recipes are, where they are not on the PATH.
_PLACES = "/usr/share/faxpages/recipes:/usr/local/share/faxpages/recipes:/usr/local/bin"
# The programs that are called, and the packages that have them.
_PACKAGES = {"faxpages-from-pdf": "faxpages", "pdfinfo": "poppler-utils", "sendfax": "hylafax-client"}


class Form(NamedTuple):
    """How a fax is coded."""

    coding: str
    resolution: str
    width: str


class Device(NamedTuple):
    """Where faxes go: the folder, whether they are handed to HylaFAX from there, whether a title may name the number,
    since the title of a document is often its author's, who may be a stranger, and whether others may read them."""

    folder: str
    to_hylafax: bool
    by_title: bool
    is_public: bool

    @classmethod
    def of(cls, uri: str) -> Device:
        """The device of `faxpages:/folder`, after which `?` and some of the words may stand, with `&` between them."""
        found = re.fullmatch(r"faxpages:(?://)?(/[^?]+?)/?(?:\?([a-z&]+))?", uri)
        words = set((found.group(2) or "").split("&")) - {""} if found else set()
        if not found or words - {"sendfax", "title", "public"}:
            raise Refused("the device is faxpages:/FOLDER, and ?sendfax, ?title, ?public or some with & may follow")
        return cls(unquote(found.group(1)), "sendfax" in words, "title" in words, "public" in words)


def number_of(job: Job, by_title: bool) -> str:
    """The number that a job names. None is guessed: where there is none, or more than one, the job is held."""
    stray = [name for name in job.options if re.fullmatch(r"[0-9()+./-]+", name)]
    if stray:
        raise Refused(f"{min(stray)!r} is no option: write the number without blanks")
    told = [job.options[name] for name in _NUMBERS if job.options.get(name, "None") not in ("None", "")]
    told = [text[7:] if text.startswith("Custom.") else text for text in told] or (
        _IN_TITLE.findall(job.title) if by_title else [])
    if not told:
        raise Refused("no number: print with -o FaxNumber=NUMBER" + (
            ", or with fax:NUMBER in the title" if by_title else ""))
    numbers = {digits_of(text) for text in told}
    if len(numbers) > 1:
        raise Refused(f"more than one number: {' and '.join(sorted(numbers))}")
    return numbers.pop()


def digits_of(text: str) -> str:
    """The digits of a number, with + before them if it has one."""
    if not _NUMBER.fullmatch(text) or "(0)" in text or len(text) > 40:
        raise Refused(f"{one_line(text, 60)!r} is no number")
    return re.sub(r"[^0-9+]", "", text)


def defaults_of(path: Optional[str]) -> Dict[str, str]:
    """What the queue's PPD file says where a job says nothing."""
    if not path:
        return {}
    with open(path, encoding="utf-8", errors="replace") as file:
        return {name.lower(): value for name, value in re.findall(r"(?m)^\*Default(\w+):\s*(\S+)", file.read())}


def form_of(options: Dict[str, str], defaults: Dict[str, str]) -> Form:
    """How a job wants its fax to be coded."""
    def choice(name: str, choices: Sequence[str]) -> str:
        word = options.get(name.lower(), defaults.get(name.lower(), choices[0])).lower()
        if word not in choices:
            raise Refused(f"{name} is {', '.join(choices[:-1])} or {choices[-1]}")
        return word
    return Form(choice("FaxCoding", CODINGS), choice("FaxResolution", RESOLUTIONS), choice("FaxWidth", WIDTHS))


class Identity(NamedTuple):
    """What CUPS knows a job by, also if it begins it again: its number, when it was made, and its uuid. A client may
    choose a uuid, also that of another job; but not the number, nor the time."""

    number: str
    made: str
    uuid: str

    @classmethod
    def of(cls, job: Job) -> Identity:
        """That of a job."""
        found = _UUID.fullmatch(job.options.get("job-uuid", ""))
        if not found:
            raise Refused("CUPS tells no job-uuid")
        if not re.fullmatch(r"[0-9]{1,10}", job.number):
            raise Refused(f"{one_line(job.number, 60)!r} is no number of a job")
        made = job.options.get("time-at-creation", "")
        return cls(job.number, made if re.fullmatch(r"[0-9]{1,20}", made) else "0", found.group(1).lower())

    def __str__(self) -> str:
        return "-".join(self)


def program(name: str) -> str:
    """The path of a program, on the PATH or where packages put it."""
    for folder in f"{os.environ.get('PATH', '')}:{_PLACES}".split(":"):
        path = os.path.join(folder, name)
        if folder.startswith("/") and os.path.isfile(path) and os.access(path, os.X_OK):
            return path
    raise Refused(f"there is no {name}: the package {_PACKAGES[name]} has it")


def run(words: List[str], seconds: int, what: str, room: Optional[str] = None) -> str:
    """Runs a program to its end, and tells what it said. It ends with this one, and after so many seconds; room is for
    its temporary files."""
    environment = {**os.environ, "PATH": f"{os.environ.get('PATH', '')}:{_PLACES}"}
    environment.update({"TMPDIR": room} if room else {})
    with subprocess.Popen(["/usr/bin/timeout", "--kill-after=2", str(seconds), *words], env=environment,
                          stdin=subprocess.DEVNULL, stdout=subprocess.PIPE, stderr=subprocess.STDOUT) as child:
        try:
            said = child.communicate()[0].decode("utf-8", "replace")
        except BaseException:
            child.terminate()
            raise
    # A plain refusal ends with a status of the program's own; else it takes too long, or was killed.
    if not 0 <= child.returncode < 124:
        raise InDoubt(f"{what} takes longer than {seconds} seconds, or was killed")
    if child.returncode:
        raise Refused(f"{what}: {said.strip() or f'status {child.returncode}'}")
    return said


def fax_of(documents: Sequence[bytes], form: Form, seconds: int) -> bytes:
    """The fax of all documents in order: one that `check` passes without a note, of pages of the form."""
    with scratch() as folder:
        pdfs = [_kept(folder, number, data) for number, data in enumerate(documents)]
        counts = [pages_in(pdf, seconds) for pdf in pdfs]
        if min(counts) == 0 or sum(counts) > PAGES:
            raise Refused(f"the PDF has {0 if min(counts) == 0 else sum(counts)} pages, and a fax from 1 to {PAGES}")
        faxes = [drawn(pdf, form, seconds) for pdf in pdfs]
        fax = faxes[0]
        if len(faxes) > 1:
            fax = os.path.join(folder, "all.tif")
            within(seconds, lambda: write(all_pages(faxes), fax, form.coding, align=form.coding != "mmr"))
        with open(fax, "rb") as file:
            made = file.read()
    within(seconds, lambda: look_at(made, form, sum(counts)))
    return made


def _kept(folder: str, number: int, data: bytes) -> str:
    """A document of a job in a file of its own."""
    path = os.path.join(folder, f"job-{number}.pdf")
    with open(path, "wb") as file:
        file.write(data)
    return path


def pages_in(pdf: str, seconds: int) -> int:
    """How many pages a PDF has."""
    told = run([program("pdfinfo"), pdf], seconds, "pdfinfo")
    return int((re.findall(r"(?m)^Pages: +([0-9]{1,9})$", told) or ["0"])[0])


def drawn(pdf: str, form: Form, seconds: int) -> str:
    """The fax of a PDF, beside it."""
    fax = f"{pdf[:-4]}.tif"
    how = ["--standard"] if form.resolution == "standard" else []
    run([program("faxpages-from-pdf"), *how, "--coding", form.coding, "--width", form.width, pdf, fax], seconds,
        "faxpages-from-pdf", os.path.dirname(pdf))
    return fax


def all_pages(faxes: Sequence[str]) -> Iterator[Page]:
    """The pages of faxes, one after another."""
    for path in faxes:
        with open(path, "rb") as file:
            yield from Fax(file.read())


def look_at(made: bytes, form: Form, pages: int) -> None:
    """Refuses a fax that is not as it is to be."""
    report = check(made)
    if report.fault or report.notes or report.pages != pages:
        raise Refused(f"the fax is not as it is to be: {report.fault or (report.notes or [report.pages])[0]}")
    if any((page.coding, str(page.width)) != (form.coding, form.width) for page in Fax(made)):
        raise Refused("the fax has a page of another form")


def told_of(job: Job, identity: Identity, number: str, form: Form, made: bytes) -> Dict[str, str]:
    """The lines of a job's file."""
    return {"number": number, "user": job.user, "title": job.title, "pages": str(len(Fax(made))),
            "coding": form.coding, "resolution": form.resolution, "width": form.width,
            "fax": f"{identity}.tif", "queue": os.environ.get("PRINTER", ""), "job": job.number}


def send(number: str, user: str, fax: str, seconds: int) -> None:
    """Hands a fax to HylaFAX. Of what a stranger names, a number and a plain name go there, each as one word."""
    name = re.sub(r"[^\w.@-]", "_", user, flags=re.ASCII).lstrip("-")[:60] or "unknown"
    say("INFO", run([program("sendfax"), "-n", "-f", name, "-d", number, fax], seconds, "sendfax").strip() or "sent")


def late(*_: object) -> NoReturn:
    """Ends as the seconds of a job are over, which begin with the job: a filter before this one may never end."""
    end_filters()
    raise Refused(f"it takes longer than {seconds_of(SECONDS)} seconds")


def stop(*_: object) -> NoReturn:
    """Ends as the job is cancelled; what is not handed on leaves nothing."""
    signal.signal(signal.SIGTERM, signal.SIG_IGN)
    raise SystemExit(1)


def hand_on(job: Job, data: bytes) -> None:
    """Hands a job on, once."""
    device, identity = Device.of(os.environ.get("DEVICE_URI", "")), Identity.of(job)
    seconds = seconds_of(SECONDS)
    with Spool(device.folder, str(identity), identity.uuid, device.is_public) as spool:
        if spool.is_done():
            say("INFO", "the fax was handed on before, and is not once more")
            return
        documents = documents_of(data, count_of(job))
        spool.keep(documents)
        for path in spool.forsaken():
            say("WARNING", f"{path} is left of a job that was killed before it was faxed: print it again, or delete it")
        number, form = number_of(job, device.by_title), form_of(job.options, defaults_of(os.environ.get("PPD")))
        if job.copies != "1":
            say("WARNING", "copies of a fax are not made")
        made = fax_of(documents, form, seconds)
        told = told_of(job, identity, number, form, made)
        if device.to_hylafax:
            spool.send(made, lambda fax: send(number, job.user, fax, seconds))
        else:
            spool.put(made, told)
    say("INFO", f"a fax of {told['pages']} pages for {number} is handed on")


def main(words: Sequence[str]) -> int:
    """The backend: without words it names its device; with those of a job it hands that on, or holds it."""
    if len(words) == 1:
        print('file faxpages:/var/spool/faxpages "Unknown" "Faxes into a folder, or to HylaFAX"')
        return 0
    signal.signal(signal.SIGTERM, stop)
    signal.signal(signal.SIGALRM, late)
    signal.alarm(seconds_of(SECONDS))
    try:
        job = Job.of(words)
        hand_on(job, job.read())
    except Refused as refused:
        say("ERROR", f"the fax is held: {refused}")
        return HOLD
    except OSError as error:
        say("ERROR", f"the fax is held: {f'{error.filename}: ' if error.filename else ''}{error.strerror or error}")
        return HOLD
    return 0
