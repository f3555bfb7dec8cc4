"""Has cargo pack the crates as it does for a registry, with no network: each is built from what was packed alone.

tests/plain-rust/run calls it."""

from __future__ import annotations

import os
import re
import subprocess
import tarfile
import tempfile
from typing import Iterator

from tests import TOP
from tests.finding import found

Claim = tuple[str, object, object]

REGISTRY = "/usr/share/cargo/registry"
# The first cargo that packs crates which stand on each other, and are in no registry yet.
PACKS = 1, 90
NAME = "faxpages"


def read(*place: str) -> str:
    with open(os.path.join(TOP, *place), encoding="utf-8") as file:
        return file.read()


def lacks() -> str | None:
    """What is missing to pack them, or None."""
    said = subprocess.run(["cargo", "--version"], capture_output=True, text=True, check=False).stdout
    version = re.match(r"cargo (\d+)\.(\d+)", said)
    if not version or tuple(map(int, version.groups())) < PACKS:
        return f"cargo is no {PACKS[0]}.{PACKS[1]} or later ({said.strip()[:60]})"
    return None


def patches(folders: list[str]) -> str:
    """The lines by which cargo takes crates from these folders. Where crates.io is replaced by a folder it packs none
    that stand on each other, so it is patched."""
    lines, names = ["[patch.crates-io]"], set[str]()
    for folder in folders:
        with open(os.path.join(folder, "Cargo.toml"), encoding="utf-8") as file:
            name = found(r'^name = "(.*)"$', file.read(), re.M)[1]
        key = name if name not in names else re.sub(r"[.+]", "_", os.path.basename(folder))
        lines.append(f'{key} = {{ package = "{name}", path = "{folder}" }}')
        names.add(name)
    return "\n".join(lines) + "\n"


def crates_of_debian() -> list[str]:
    return [os.path.join(REGISTRY, name) for name in sorted(os.listdir(REGISTRY))]


def cargo(room: str, folder: str, *words: str) -> tuple[str, int]:
    """What cargo says, with no network, and its status."""
    kept = {name: value for name, value in os.environ.items() if not name.endswith("RUSTFLAGS")}
    environment = {**kept, "CARGO_HOME": room, "CARGO_NET_OFFLINE": "true", "CARGO_TARGET_DIR": os.path.join(room, "target"),
                   "RUSTFLAGS": "--cap-lints=allow"}
    ran = subprocess.run(["cargo", *words], cwd=folder, env=environment, stdin=subprocess.DEVNULL, stdout=subprocess.PIPE,
                         stderr=subprocess.STDOUT, check=False)
    return ran.stdout.decode(errors="replace"), ran.returncode


def pack(room: str, folder: str, others: list[str], *words: str) -> tuple[str, int]:
    """Has cargo pack what stands in a folder, and build it from what was packed."""
    with open(os.path.join(room, "config.toml"), "w", encoding="utf-8") as file:
        file.write(patches(others))
    said, status = cargo(room, folder, "package", "--quiet", "--allow-dirty", *words)
    return said[-600:], status


def of_package(path: str) -> Iterator[Claim]:
    """What each package says, and its licence."""
    whole = os.path.basename(path)[: -len(".crate")]
    with tarfile.open(path) as packed:
        files = {member.name: packed.extractfile(member) for member in packed.getmembers()}
        texts = {name[len(whole) + 1:]: file.read().decode() for name, file in files.items() if file}
    yield f"{whole} is a name of this project", whole.startswith(NAME) and whole.endswith("-" + read("VERSION").strip()), True
    yield f"{whole} has the licence", texts.get("LICENSE"), read("LICENSE")
    manifest = texts["Cargo.toml"].split("\n[lib]")[0]
    for key in ("repository", "documentation"):
        wanted = found(rf'^{key} = "(.*)"$', read("rust", "Cargo.toml"), re.M)[1]
        yield f"{whole} says its {key}", re.findall(rf'^{key} = "(.*)"$', manifest, re.M), [wanted]


def without_unsafe_code(room: str) -> Iterator[Claim]:
    """Where the feature for SSE2 is left out, the crate is built with none of those under which the kit's std has unsafe
    code; where it is not, with that one."""
    folder = os.path.join(room, "target", "package", f"{NAME}-{read('VERSION').strip()}")
    with open(os.path.join(room, "config.toml"), "w", encoding="utf-8") as file:
        file.write(patches(crates_of_debian() + unpacked(room)))
    ways: list[tuple[list[str], set[str]]] = [(["--no-default-features"], set()), ([], {"sse2"})]
    for words, wanted in ways:
        tree = cargo(room, folder, "tree", "--format", "{p} [{f}]", *words)
        yield f"the crate, {words}", cargo(room, folder, "check", "--quiet", *words), ("", 0)
        features = set(filter(None, ",".join(re.findall(rf"{NAME}-kit-std v[^\[]*\[(.*)\]", tree[0])).split(",")))
        yield f"features of the kit's std, {words}", (features, tree[1]), (wanted, 0)


def unpacked(room: str) -> list[str]:
    """The folders of what was packed so far."""
    place, folders = os.path.join(room, "target", "package"), list[str]()
    for name in sorted(os.listdir(place)):
        if name.endswith(".crate"):
            folders.append(os.path.join(place, name[: -len(".crate")]))
            with tarfile.open(os.path.join(place, name)) as packed:
                packed.extractall(place)
    return folders


def claims(sources: str) -> Iterator[Claim]:
    """All claims, of a folder with plain/ and rust/."""
    with tempfile.TemporaryDirectory() as room:
        debian = crates_of_debian()
        yield "cargo package --workspace", pack(room, os.path.join(sources, "plain"), debian, "--workspace"), ("", 0)
        # The archive of the proved library is not linked here.
        yield "cargo package, rust/sys", pack(room, os.path.join(sources, "rust", "sys"), debian, "--no-verify"), ("", 0)
        yield "cargo package, rust", pack(room, os.path.join(sources, "rust"), debian + unpacked(room)), ("", 0)
        paths = [f"{folder}.crate" for folder in unpacked(room)]
        yield "packages", len(paths), len([name for name in os.listdir(os.path.join(sources, "plain"))
                                           if os.path.exists(os.path.join(sources, "plain", name, "Cargo.toml"))]) + 2
        for path in paths:
            yield from of_package(path)
        yield from without_unsafe_code(room)
