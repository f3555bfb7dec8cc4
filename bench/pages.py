#!/usr/bin/env python3
"""Draws eleven fax pages of 1728 by 2292 pels anew, by a seed: another seed, another page of the same kind.

    bench/pages.py SEED FOLDER

writes NAME.pbm for each. It needs PIL (python3-pil) and fonts (fonts-dejavu-core fonts-ipafont-mincho
fonts-femkeklaver fonts-breip)."""

from __future__ import annotations

import glob
import importlib
import math
import os
import random
import sys
from typing import Any, Callable, Dict, List, Sequence

WIDTH, ROWS = 1728, 2292
BLACK, WHITE = 0, 255
# The size of a photograph on its page.
PHOTOGRAPH = (1200, 960)
FONTS = {"serif": "DejaVuSerif.ttf", "sans": "DejaVuSans.ttf", "mono": "DejaVuSansMono.ttf", "mincho": "ipam.ttf",
         "hand": "femkeklaver.ttf", "hasty": "breip*.ttf"}
LATIN, CYRILLIC = "etaoinshrdlucmfwypvbgk", "оеаинтсрвлкмдпуяызьбгч"
# Kana, and kanji of every day.
JAPANESE = [chr(code) for code in range(0x3042, 0x3090)] + list(
    "日一国会人年大十二本中長出三同時政事自行社見月分議後前民生連五発間対上部東者党地合市業内相方四定今回新場金員九入選立開手米力学問高代明実円関決子動京全目表戦経通外最言氏現理調体化田当八六約主題下首意法")


class Drawing:
    """A page that is drawn, by random numbers of its own."""

    def __init__(self, seed: str) -> None:
        self._pil = {name: importlib.import_module(f"PIL.{name}") for name in ("Image", "ImageDraw", "ImageFont")}
        self.random = random.Random(seed)
        self.image: Any = self._pil["Image"].new("L", (WIDTH, ROWS), WHITE)
        self.draw: Any = self._pil["ImageDraw"].Draw(self.image)

    def font(self, name: str, size: int) -> Any:
        """A font of Debian's by its file, in pels."""
        (path, *_) = sorted(glob.glob(f"/usr/share/fonts/**/{FONTS[name]}", recursive=True))
        return self._pil["ImageFont"].truetype(path, size)

    def words(self, letters: Sequence[str], count: int, longest: int = 9) -> str:
        """So many words, whose letters come the oftener the earlier they stand."""
        weights = [1 / (3 + place) for place in range(len(letters))]
        chosen = ("".join(self.random.choices(letters, weights, k=self.random.randint(1, longest)))
                  for _ in range(count))
        return " ".join(word.capitalize() if self.random.random() < 0.1 else word for word in chosen)

    def lines(self, font: Any, letters: Sequence[str], x: int, rows: range, words: int) -> None:
        """Lines of words from x on, one at each of these rows."""
        for y in rows:
            self.draw.text((x, y), self.words(letters, words), BLACK, font)

    def shades(self) -> Any:
        """A picture of grey: some soft spots of light and shade."""
        small = self._pil["Image"].new("L", (75, 60))
        spots = [(self.random.uniform(0, 75), self.random.uniform(0, 60), self.random.uniform(4, 30),
                  self.random.uniform(-90, 90)) for _ in range(14)]
        small.putdata([self._light(x, y, spots) for y in range(60) for x in range(75)])
        return small.resize(PHOTOGRAPH, 3)

    def framed(self, picture: Any) -> Any:
        """A page with a picture, and words under it."""
        self.image.paste(picture, (260, 300))
        self.lines(self.font("serif", 36), LATIN, 260, range(1400, 1700, 46), 8)
        return self.image

    @staticmethod
    def _light(x: int, y: int, spots: List[Any]) -> int:
        light: float = sum(
            most * math.exp(-((x - at) ** 2 + (y - row) ** 2) / size ** 2) for at, row, size, most in spots)
        return round(max(0, min(255, 128 + light)))


def text(page: Drawing) -> Any:
    """Dense text, from edge to edge."""
    page.lines(page.font("serif", 34), LATIN, 150, range(120, 2160, 44), 18)
    return page.image


def usual(page: Drawing) -> Any:
    """A letter with margins and blank rows."""
    font = page.font("serif", 36)
    page.lines(font, LATIN, 260, range(180, 320, 46), 4)
    for top in (620, 1060, 1500):
        page.lines(font, LATIN, 260, range(top, top + 320, 46), page.random.randint(8, 10))
    page.lines(font, LATIN, 260, range(1980, 2080, 46), 3)
    return page.image


def cyrillic(page: Drawing) -> Any:
    """A letter in Cyrillic, in small letters."""
    page.lines(page.font("sans", 30), CYRILLIC, 200, range(160, 480, 40), 5)
    page.lines(page.font("sans", 30), CYRILLIC, 200, range(600, 1900, 40), 10)
    return page.image


def japanese(page: Drawing) -> Any:
    """Japanese, without blanks between words."""
    font = page.font("mincho", 40)
    for y in range(200, 2080, 62):
        page.draw.text((160, y), "".join(page.random.choices(JAPANESE, k=34)), BLACK, font)
    return page.image


def handwriting(page: Drawing) -> Any:
    """A letter by hand, in two hands."""
    page.lines(page.font("hand", 68), LATIN, 180, range(160, 1200, 96), 9)
    page.lines(page.font("hasty", 60), LATIN, 220, range(1300, 2000, 104), 8)
    return page.image


def form(page: Drawing) -> Any:
    """A form: boxes, rules, and words in them."""
    label, filled = page.font("sans", 20), page.font("mono", 32)
    for y in range(200, 2100, page.random.choice([76, 84, 92])):
        x = 120
        while x < 1500:
            width = page.random.choice([180, 240, 360, 480])
            page.draw.rectangle((x, y, min(x + width, 1608), y + 70), outline=BLACK, width=3)
            page.draw.text((x + 8, y + 4), page.words(LATIN, 1), BLACK, label)
            page.draw.text((x + 12, y + 28), page.words(LATIN, 1, width // 26), BLACK, filled)
            x += width
    return page.image


def photograph(page: Drawing) -> Any:
    """A photograph by Floyd and Steinberg's dots, with words under it."""
    return page.framed(page.shades().convert("1"))


def halftone(page: Drawing) -> Any:
    """A photograph by a screen of dots, eight pels wide, as newspapers have."""
    shades = page.shades()
    dot = sorted(((x - 3.5) ** 2 + (y - 3.5) ** 2, x, y) for x in range(8) for y in range(8))
    level = {(x, y): 4 * place + 2 for place, (_, x, y) in enumerate(dot)}
    screen = [level[x % 8, y % 8] for y in range(PHOTOGRAPH[1]) for x in range(PHOTOGRAPH[0])]
    shades.putdata([BLACK if 255 - shade > least else WHITE for shade, least in zip(shades.getdata(), screen)])
    return page.framed(shades)


def speckle(page: Drawing) -> Any:
    """A usual page as a bad line leaves it: specks all over."""
    image = usual(page)
    for _ in range(12000):
        x, y = page.random.randrange(WIDTH), page.random.randrange(ROWS)
        image.putpixel((x, y), BLACK if page.random.random() < 0.8 else WHITE)
    return image


def sparse(page: Drawing) -> Any:
    """A nearly blank page: a head and a few lines."""
    page.lines(page.font("mono", 26), LATIN, 80, range(30, 60, 46), 8)
    page.lines(page.font("serif", 36), LATIN, 260, range(400, 540, 46), 6)
    return page.image


def blank(page: Drawing) -> Any:
    """A page without anything on it."""
    return page.image


PAGES: Dict[str, Callable[[Drawing], Any]] = {
    kind.__name__: kind for kind in (text, usual, cyrillic, japanese, handwriting, form, photograph, halftone, speckle,
                                     sparse, blank)}


def pbm(image: Any) -> bytes:
    """An image as raw PBM, in which black is 1."""
    rows: bytes = image.convert("1", dither=0).tobytes()
    return b"P4\n%d %d\n" % (WIDTH, ROWS) + bytes(it ^ 0xFF for it in rows)


def main() -> None:
    for name, kind in PAGES.items():
        with open(os.path.join(sys.argv[2], f"{name}.pbm"), "wb") as file:
            file.write(pbm(kind(Drawing(f"{sys.argv[1]} {name}"))))


if __name__ == "__main__":
    main()
