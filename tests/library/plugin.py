#!/usr/bin/env python3
"""Looks at faxes and at other TIFF files by Pillow, with faxpages' plugin and without, each in a process of its own:
nothing differs, but that damage is refused.

    plugin.py FILE..               does both, and compares
    plugin.py plain FOLDER OUT     writes what Pillow does with the files of a folder
    plugin.py register FOLDER OUT  the same after faxpages.register()

Needs Pillow; img2pdf is tried where it is installed. FAXPAGES_LIBRARY names the library. Ends with
'plugin: N passed, N failed'."""

from __future__ import annotations

import copy
import hashlib
import importlib.util
import io
import json
import multiprocessing
import os
import pickle
import random
import re
import shutil
import struct
import subprocess
import sys
import tempfile
import warnings
from typing import Any, Callable, Iterator, TextIO

from tests import TOP
from tests.library.counted import Claims

import faxpages

from PIL import Image, ImageFile, ImageSequence, TiffImagePlugin  # isort: skip

# How many damaged files are made, and how many bytes a large one has.
DAMAGED, LARGE = 400, 400 << 20
# What memory a process may take that opens a large file, in KB.
LITTLE = 80 << 10
PAGE_NUMBER = 297
REFUSED = re.compile(
    r"OSError: (page \d+ row \d+: [A-Za-z]+( \d+)?|page \d+ of \d+ is not read by Pillow|a directory is damaged: )")
HAS_IMG2PDF = importlib.util.find_spec("img2pdf") is not None


class Reads(io.FileIO):
    """A file that counts the bytes that are read."""

    count = 0

    def readinto(self, buffer: Any) -> int | None:
        read = super().readinto(buffer)
        self.count += read or 0
        return read

    def read(self, size: int | None = -1) -> bytes:
        data = super().read(-1 if size is None else size)
        self.count += len(data)
        return data


def said(work: Callable[..., object], *words: object) -> str:
    """What a call answers as text: its value, or its exception, without places in memory."""
    try:
        text = repr(work(*words))
    except Exception as error:  # pylint: disable=broad-except
        text = f"{type(error).__name__}: {error}"
    return re.sub(" at 0x[0-9a-f]+", "", text)


def digest(data: bytes) -> str:
    return hashlib.sha256(data).hexdigest()[:16]


def pels(image: Image.Image) -> tuple[str, tuple[int, int], str]:
    return image.mode, image.size, digest(image.tobytes())


def facts(image: Image.Image) -> tuple[object, ...]:
    """What an image tells that is not loaded."""
    tags = sorted((tag, repr(value)) for tag, value in image.tag_v2.items())
    return (image.format, image.format_description, image.mode, image.size, sorted(map(repr, image.info.items())), tags,
            bool(image.tile), image.is_animated, image.tell(), image.get_format_mimetype(), dict(image.getexif()))


def opened(name: str) -> tuple[tuple[object, ...], int]:
    """An image that is opened, and what is read of the file until then."""
    with Reads(name) as file:
        image = Image.open(file)
        return facts(image), file.count


def moved(name: str) -> tuple[object, ...]:
    """Goes to frames that are there, and to others."""
    image = Image.open(name)
    count = said(lambda: image.n_frames)
    found = [said(image.seek, frame) + said(image.tell) for frame in (-1, 1, 0, 2, 0, 2 ** 20, 0)]
    return count, found, pels(image), said(lambda: image.n_frames) == count


def verified(name: str) -> bool:
    image = Image.open(name)
    image.verify()
    return bool(image.fp is None)


def pickled(image: Image.Image, protocol: int) -> tuple[object, ...]:
    """What comes back of an image that is pickled."""
    again = pickle.loads(pickle.dumps(image, protocol))
    return type(again).__module__, type(again).__name__, pels(again), sorted(map(repr, again.info.items()))


def kept(name: str, **words: object) -> tuple[object, ...]:
    """What is saved of a file: how many bytes, and what they are. Pillow writes a page's number as no number."""
    out = io.BytesIO()
    with Image.open(name) as image:
        image.save(out, **words)
    again = Image.open(io.BytesIO(out.getvalue()))
    tags = [(tag, repr(value)) for tag, value in getattr(again, "tag_v2", {}).items() if tag != PAGE_NUMBER]
    return len(out.getvalue()), sorted(tags), sorted(map(repr, again.info.items())), pels(again)


def changed(name: str) -> list[object]:
    """What is made of an image."""
    image = Image.open(name)
    small = image.copy()
    small.thumbnail((5, 5))
    return [pels(it) for it in (small, image.crop((0, 0, 2, 2)), image.rotate(90, expand=True), copy.deepcopy(image))]


def parsed(name: str) -> tuple[str, tuple[int, int], str]:
    """What Pillow's Parser makes of all bytes at once."""
    parser = ImageFile.Parser()
    with open(name, "rb") as file:
        parser.feed(file.read())
    return pels(parser.close())


def in_pdf(name: str) -> str:
    """The PDF that img2pdf makes."""
    import img2pdf  # pylint: disable=import-outside-toplevel

    made = img2pdf.convert(name, nodate=True, layout_fun=img2pdf.get_layout_fun((600, 800)))
    return digest(re.sub(rb"/ID *\[.*?\]", b"", made, flags=re.S))


def closed(name: str) -> tuple[object, ...]:
    """Whether a file is closed after it was loaded, and what comes then."""
    with Image.open(name) as image:
        file = image.fp
        image.load()
        left = file.closed, image.fp is None
    return left, said(image.load), file.closed, said(Image.open(name).load) == said(Image.open(name).load)


def frames(name: str) -> Iterator[object]:
    """Each frame: its pels, and what is pickled."""
    image = Image.open(name)
    for frame in ImageSequence.Iterator(image):
        yield facts(frame), said(pels, frame), [said(pickled, frame, protocol) for protocol in (0, 2, 5)]


def by_frames(name: str) -> list[object]:
    """The same as a list, up to an error, which is told."""
    found: list[object] = []
    try:
        found.extend(frames(name))
    except Exception as error:  # pylint: disable=broad-except
        found.append(f"{type(error).__name__}: {error}")
    return found


def look(folder: str, out: TextIO) -> None:
    """Writes what comes of each file of a folder, in each way, as lines of JSON."""
    warnings.simplefilter("ignore")
    ways: dict[str, Callable[[str], object]] = {
            "open": opened, "frames": by_frames, "seek": moved, "verify": verified, "change": changed, "parse": parsed,
            "close": closed, "save as TIFF": lambda name: kept(name, format="TIFF"),
            "save as LZW": lambda name: kept(name, format="TIFF", compression="tiff_lzw"),
            "save as PNG": lambda name: kept(name, format="PNG"),
            "save all": lambda name: kept(name, format="TIFF", save_all=True)}
    if HAS_IMG2PDF:
        ways["PDF"] = in_pdf
    for name in sorted(os.listdir(folder)):
        for way, work in ways.items():
            print(json.dumps([name, way, said(work, f"{folder}/{name}")]), file=out)


def put_frames(name: str, *saved: tuple[Image.Image, dict[str, object]]) -> None:
    """Writes a file of several frames, each an image and how it is saved."""
    with TiffImagePlugin.AppendingTiffWriter(name, True) as out:
        for image, words in saved:
            image.save(out, format="TIFF", **words)
            out.newFrame()


def put_others(folder: str) -> None:
    """Writes files by Pillow: faxes in each of its compressions and out of the module's limits, and other TIFFs."""
    draw = random.Random(72)
    page = Image.frombytes("1", (1728, 300), bytes(draw.choice([0, 0, 255, draw.randrange(256)]) for _ in range(64800)))
    colours = Image.new("RGB", (40, 30), (9, 99, 199))
    for compression in ("raw", "packbits", "tiff_lzw", "tiff_ccitt", "group3", "group4"):
        page.save(f"{folder}/page-{compression}.tif", compression=compression, dpi=(204, 98))
    for mode in ("L", "RGB", "P", "CMYK", "I;16", "F"):
        Image.new(mode, (20, 10)).save(f"{folder}/mode-{mode.replace(';', '')}.tif")
    colours.save(f"{folder}/jpeg.tif", compression="jpeg")
    Image.new("1", (70000, 3), 1).save(f"{folder}/wide.tif", compression="group4")
    Image.new("1", (8, 1000001), 1).save(f"{folder}/high.tif", compression="group4", tiffinfo={278: 1000001})
    as_fax: dict[str, object] = {"compression": "group4", "dpi": (200, 100)}
    put_frames(f"{folder}/mixed.tif", (page, as_fax), (colours, {"compression": "tiff_lzw"}), (page, as_fax))
    put_frames(f"{folder}/mixed-colours-first.tif", (colours, {}), (page, as_fax))
    if shutil.which("tiffcp"):
        for name, words in (("tiles", ["-t", "-w", "512", "-l", "512"]), ("big", ["-8"]), ("strips", ["-r", "7"]),
                            ("order", ["-f", "lsb2msb"])):
            subprocess.run(["tiffcp", *words, f"{folder}/page-group4.tif", f"{folder}/tiffcp-{name}.tif"], check=True)


def put_mistaken(folder: str) -> None:
    """Writes faxes of which a field that has one number stands twice, or has more: what one reader takes another does not."""
    with open(f"{TOP}/samples/three-mmr-rows.tif", "rb") as file:
        data = file.read()
    begin, = struct.unpack_from("<L", data, 4)
    count, = struct.unpack_from("<H", data, begin)
    entries = [struct.unpack_from("<HHLL", data, begin + 2 + 12 * at) for at in range(count)]
    at = len(data) + len(data) % 2
    ways = {"twice-262": [it for one in entries for it in ([one, (262, 3, 1, 1 - one[3])] if one[0] == 262 else [one])],
            "many-278": [(278, 4, 33, at) if one[0] == 278 else one for one in entries],
            "none-278": [(278, 3, 0, 3) if one[0] == 278 else one for one in entries]}
    for name, changed_entries in ways.items():
        rows = struct.pack("<33L", 3, *[1] * 32)
        directory = struct.pack("<H", len(changed_entries)) + b"".join(struct.pack("<HHLL", *it) for it in changed_entries)
        with open(f"{folder}/mistaken-{name}.tif", "wb") as file:
            file.write(data[:4] + struct.pack("<L", at + len(rows)) + data[8:].ljust(at - 8, b"\0") + rows + directory + bytes(4))


def put_damaged(folder: str) -> None:
    """Writes damaged faxes: bytes are changed, or the end is cut."""
    draw, names = random.Random(720), sorted(name for name in os.listdir(folder) if not name.startswith("high"))
    for number in range(DAMAGED):
        name = draw.choice(names)
        with open(f"{folder}/{name}", "rb") as file:
            data = bytearray(file.read())
        for _ in range(draw.randrange(3)):
            if data:
                data[draw.randrange(len(data))] = draw.randrange(256)
        data = data[:draw.randrange(len(data) + 1)] if draw.randrange(3) == 0 else data
        with open(f"{folder}/damaged-{number:03}-{name}", "wb") as file:
            file.write(data)


def by_other_process(how: str, folder: str) -> dict[tuple[str, str], str]:
    """What another process looks at, by file and way."""
    with tempfile.NamedTemporaryFile() as out:
        words = [sys.executable, "-W", "ignore", __file__, how, folder, out.name]
        ran = subprocess.run(words, capture_output=True, check=False)
        if ran.returncode:
            raise SystemExit(f"plugin.py {how}: {ran.stderr.decode()}")
        return {(name, way): text for name, way, text in map(json.loads, out.read().decode().splitlines())}


def faults_of(name: str) -> list[faxpages.Fault]:
    """The faults of the first pages of a file, and whether it has any at all."""
    found, fax = [], faxpages.open(name)
    for number in range(20):
        try:
            fax.page(number).packed()
        except faxpages.Fault as fault:
            found.append(fault)
        except faxpages.OutsideError:
            break
    return found


def is_refusal(name: str, way: str, one: str, other: str) -> bool:
    """Whether what comes with the plugin is a refusal of a file that is damaged, where Pillow alone gave something."""
    if way == "parse" and one.startswith("OSError") and other.startswith("OSError"):
        return True
    return REFUSED.search(other) is not None and (faults_of(name) != [] or is_mistaken(name))


def is_mistaken(name: str) -> bool:
    """Whether a field of one number stands twice in the first directory of a file, or has no count of one."""
    with open(name, "rb") as file:
        data = file.read()
    order = "<" if data[:2] == b"II" else ">"
    begin, = struct.unpack_from(order + "L", data, 4)
    count, = struct.unpack_from(order + "H", data, begin)
    entries = [struct.unpack_from(order + "HHL", data, begin + 2 + 12 * at) for at in range(count)]
    single = [(tag, many) for tag, _, many in entries if tag in (256, 257, 258, 259, 262, 266, 277, 278, 292)]
    return len({tag for tag, _ in single}) < len(single) or any(many != 1 for _, many in single)


def compare(claims: Claims, folder: str) -> None:
    """What differs is a refusal, of a file that is damaged; and each damaged row is refused."""
    plain, registered = by_other_process("plain", folder), by_other_process("register", folder)
    refusals = 0
    for (name, way), one in plain.items():
        other = registered[name, way]
        if one != other:
            refusals += 1
            claims.see(f"{name}, {way}: {other[:300]}, and not {one[:300]}",
                       is_refusal(f"{folder}/{name}", way, one, other))
    for name, tag in (("twice-262", 262), ("many-278", 278), ("none-278", 278)):
        found = registered[f"mistaken-{name}.tif", "frames"]
        claims.see(f"{name} is refused: {found}", f"BadField {tag}" in found)
    claims.see("the same files", plain.keys() == registered.keys() and len(plain) > 1000)
    claims.see(f"damage is refused {refusals} times", refusals > DAMAGED // 2)
    for name in sorted({name for name, _ in plain}):
        for fault in faults_of(f"{folder}/{name}"):
            if isinstance(fault, (faxpages.StripFault, faxpages.StripOutside)):
                found = registered[name, "frames"]
                claims.see(f"{name} is refused by {fault}: {found}", str(fault) in found or "Error: " in found)


def in_other_processes(claims: Claims, folder: str) -> None:
    """Images of the plugin go through processes."""
    with multiprocessing.get_context("spawn").Pool(2) as pool:
        faxpages.register()
        image = Image.open(f"{folder}/page-group4.tif")
        found = pool.map_async(pels, [image, image]).get(60)
        claims.see("images go to other processes", found == [pels(image)] * 2)


LOOK_AT_LARGE = """
import re, sys
sys.path.insert(0, sys.argv[2])
from PIL import Image
if sys.argv[3] == "register":
    import faxpages
    faxpages.register()
image = Image.open(sys.argv[1])
image.load()
count = image.n_frames
Image.open(sys.argv[1]).verify()
print(image.size, count, re.search("VmHWM: *([0-9]+)", open("/proc/self/status").read().replace("\t", " ")).group(1))
"""


def large(claims: Claims, folder: str) -> None:
    """A large file is not read whole, whether its frame is a fax or not."""
    for name in ("page-group4.tif", "mode-RGB.tif"):
        shutil.copy(f"{folder}/{name}", f"{folder}/large-{name}")
        os.truncate(f"{folder}/large-{name}", LARGE)
        found = {}
        for how in ("plain", "register"):
            words = [sys.executable, "-I", "-c", LOOK_AT_LARGE, f"{folder}/large-{name}", f"{TOP}/python", how]
            found[how] = subprocess.run(words, capture_output=True, check=False).stdout.decode().split()
        claims.see(f"{name}, large, in memory: {found}", found["plain"][:3] == found["register"][:3] != []
                   and int(found["register"][3]) < LITTLE)


def main() -> int:
    claims = Claims()
    with tempfile.TemporaryDirectory() as folder:
        for name in sys.argv[1:]:
            shutil.copy(name, folder)
        put_others(folder)
        put_damaged(folder)
        put_mistaken(folder)
        compare(claims, folder)
        in_other_processes(claims, folder)
        large(claims, folder)
    return claims.ends("plugin")


if __name__ == "__main__":
    if sys.argv[1] in ("plain", "register"):
        if sys.argv[1] == "register":
            faxpages.register()
        with open(sys.argv[3], "w", encoding="utf-8") as written:
            look(sys.argv[2], written)
    else:
        sys.exit(main())
