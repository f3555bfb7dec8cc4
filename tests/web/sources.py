"""The sources of the page: the library inside is of these sources, all words stand in one file, and nothing names
another place."""

from __future__ import annotations

import base64
import glob
import json
import os
import re
import shutil
import subprocess
from typing import Generator

from tests import Claim
from tests import TOP
from tests.finding import found
from tests.web import faxes

WEB = os.path.join(TOP, "web")
MOST_LINES, MOST_COLUMNS = 800, 120


def read(*name: str) -> str:
    with open(os.path.join(TOP, *name), encoding="utf-8") as file:
        return file.read()


def printed(*words: str) -> str:
    return subprocess.run(words, cwd=TOP, capture_output=True, check=False).stdout.decode().strip()


# What differs between the texts of languages: names, places for values, and numbers.
DIFFERENCES = r"""
const { readFileSync } = require("node:fs");
const { runInNewContext } = require("node:vm");
const texts = process.argv.slice(1).map((name) => readFileSync(name, "utf8")).join("\n");
const [[, english], ...others] = runInNewContext(`${texts}; [...LANGUAGES]`);
const parts = (text) => [text.match(/\{\d\}/g) ?? [],
    (text.replace(/\{\d\}/g, "").match(/\d(?:[.,]?\d)*/g) ?? []).map((it) => it.replace(/\D/g, ""))]
    .map((it) => it.sort().join()).join("|");
const keys = (one, other) => [...new Set([...Object.keys(one), ...Object.keys(other)])];
const differ = (one, other, path) => typeof one !== typeof other ? [path]
    : typeof one === "string" ? (parts(one) === parts(other) && (other || !one) ? [] : [path])
    : keys(one, other).flatMap((key) => differ(one[key], other[key], `${path} ${key}`));
const same = (one, other, path) => typeof one === "string" ? (one === other && one.length > 25 ? [path] : [])
    : Object.keys(one).flatMap((key) => same(one[key], other[key], `${path} ${key}`));
console.log(JSON.stringify(others.map(([code, it]) => [code, differ(english, it, code), same(english, it, code)])));
"""


def claims() -> Generator[Claim, None, None]:
    yield from module_is_of_these_sources()
    yield from sources_are_in_form()
    yield from languages_are_one()


def languages_are_one() -> Generator[Claim, None, None]:
    """Each language has each text, with the same places for values and the same numbers, in words of its own."""
    if not shutil.which("node"):
        return
    names = [f"{WEB}/texts.js", *sorted(glob.glob(f"{WEB}/texts-*.js"))]
    told = json.loads(printed("node", "-e", DIFFERENCES, *names))
    yield "there is a language beside English", [code for code, _, _ in told], [
        re.sub(r".*texts-(\w+)\.js", r"\1", name) for name in names[1:]]
    for code, others, same in told:
        yield f"{code}: texts that say something else", others, []
        yield f"{code}: texts that are English", same, []


def module_is_of_these_sources() -> Generator[Claim, None, None]:
    """The module was built of the sources as they stand: tools/build-web makes it anew."""
    head = dict(re.findall(r"^// (version|rustc|sources|module) (\S+)$", read("web", "faxpages.wasm.js"), re.M))
    yield "web/faxpages.wasm.js: its version", head.get("version"), read("VERSION").strip()
    yield "web/faxpages.wasm.js: its sources (tools/build-web makes it anew)", head.get("sources"), printed(
        "tools/build-web", "--sources")
    text = found(r"^const FAXPAGES_WASM = `\n([^`]*)`;$", read("web", "faxpages.wasm.js"), re.M)
    module = base64.b64decode(text[1])
    yield "web/faxpages.wasm.js: it is a module", module[:8], b"\0asm\1\0\0\0"
    yield "web/faxpages.wasm.js: no path of a machine", re.findall(rb"/(?:usr|tmp|root|home|work|var)/", module), []
    yield "web/faxpages.wasm.js: its module", head.get("module"), printed("tools/build-web", "--digest")


def sources_are_in_form() -> Generator[Claim, None, None]:
    """Scripts parse; no file is long, no line wide; and nothing names a place elsewhere."""
    scripts = [name for name in sorted(glob.glob(f"{WEB}/*.js")) if not name.endswith("wasm.js")]
    yield "there are scripts", len(scripts) >= 8, True
    if shutil.which("node"):
        for name in glob.glob(f"{WEB}/*.js"):
            looked = subprocess.run(["node", "--check", name], check=False, capture_output=True)
            yield f"{name} parses", looked.stderr, b""
    else:
        print("SKIPPED: node does not look at the scripts of web/ (nodejs)")
    if shutil.which("tsc"):
        checked = subprocess.run(
            ["tsc", "--noEmit", "--allowJs", "--checkJs", "--strict", "--target", "es2022", "--lib",
             "es2022,dom,dom.iterable", *sorted(glob.glob(f"{WEB}/*.js"))], check=False, capture_output=True)
        yield "types of the scripts", checked.stdout.decode(), ""
    else:
        print("SKIPPED: types of the scripts of web/ are not checked (node-typescript)")
    for name in scripts + [f"{WEB}/faxpages.css"]:
        lines = read("web", os.path.basename(name)).splitlines()
        yield f"{name}: lines", len(lines) < MOST_LINES, True
        yield f"{name}: wide lines", [at for at, line in enumerate(lines, 1) if len(line) > MOST_COLUMNS], []
    page = read("web", "index.html")
    for text in [page] + [read("web", os.path.basename(name)) for name in scripts + [f"{WEB}/faxpages.css"]]:
        yield "no place elsewhere", re.findall(r"https?:|\bimportScripts\b|(?<!-)\beval\b|innerHTML", text), []
    policy = re.search(r'Content-Security-Policy" content="([^"]*)"', page)
    yield "the policy", policy is not None and {"default-src 'none'", "connect-src 'none'", "base-uri 'none'"} <= set(
        policy.group(1).split("; ")), True
    words = re.findall(r">\s*([^<>]*[A-Za-z][^<>]*)<", re.sub(r"<(title|noscript|kbd)>.*?</\1>", "", page))
    yield "the page has no words of its own: they are in texts.js", words, []
    told = read("web", "texts.js").partition("    page: {")[2].partition("\n    },")[0]
    keys = set(re.findall(r"^        (\w+):", told, re.M))
    yield "each word of the page is one of texts.js", keys, set(re.findall(r'data-(?:text|label)="(\w+)"', page))
    yield "and no name is another", re.findall(r'aria-label="[^"]+"', page), []
    named = set(re.findall(r'(?:src|href)="([^":#,]+)"', page))
    there = {os.path.basename(name) for name in glob.glob(f"{WEB}/*.*")}
    yield "the page names what is there", named, there - {"index.html"}
