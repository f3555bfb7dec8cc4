"""Fax pages of letters, whose words a browser draws."""

from __future__ import annotations

import base64
import json
import random
import struct
import subprocess

from tests.web.browser import Browser

WIDTH = 1728
LETTERS = "eeettaaooiinnssrrhhlldcumfpgwybvk"


def lines_of(seed: int, count: int) -> list[str]:
    """Lines of words that nobody wrote."""
    chosen = random.Random(seed)
    words = ["".join(chosen.choices(LETTERS, k=chosen.randint(2, 9))) for _ in range(8 * count)]
    return [" ".join(words[8 * line:8 * line + 8]) for line in range(count)]


def drawn(browser: Browser, head: str, lines: list[str], rows: int) -> bytes:
    """A raw PBM of a letter: a head, and lines below it; where a page has half the rows, its pels are twice as high."""
    packed = browser.run(f"""(() => {{
        const canvas = document.createElement("canvas");
        canvas.width = {WIDTH};
        canvas.height = {rows};
        const draw = canvas.getContext("2d");
        draw.fillStyle = "white";
        draw.fillRect(0, 0, {WIDTH}, {rows});
        draw.fillStyle = "black";
        draw.scale(1, {rows} / 2292);
        draw.font = "bold 64px 'DejaVu Sans', sans-serif";
        draw.fillText({json.dumps(head)}, 130, 200);
        draw.fillRect(130, 240, 1468, 6);
        draw.font = "37px 'DejaVu Serif', serif";
        {json.dumps(lines)}.forEach((line, at) => draw.fillText(line, 130, 360 + 62 * at, 1468));
        const {{ data }} = draw.getImageData(0, 0, {WIDTH}, {rows});
        const bytes = new Uint8Array({WIDTH // 8 * rows});
        for (let pel = 0; pel < {WIDTH * rows}; pel++) {{
            if (data[4 * pel] < 128) bytes[pel >> 3] |= 0x80 >> (pel & 7);
        }}
        let text = "";
        for (const byte of bytes) text += String.fromCharCode(byte);
        return btoa(text);
    }})()""")
    return b"P4\n%d %d\n" % (WIDTH, rows) + base64.b64decode(packed)


def fax(program: str, images: bytes, words: list[str]) -> bytes:
    """The images as TIFF-F, by the program."""
    return subprocess.run([program, "convert", *words], input=images, capture_output=True, check=True).stdout


def standard(data: bytes) -> bytes:
    """The same pages with 98 rows to the inch."""
    return data.replace(struct.pack("<2I", 196, 1), struct.pack("<2I", 98, 1))
