# What tests/install/run tries of Python's packages: the wheels, the module in python/, and the archive of the sources, of
# which pip builds a wheel. It is sourced, and takes the functions and the folder `room` of that script.

# Runs pip without a network, and without other places that are set on this machine.
offline() {
    env -u PIP_FIND_LINKS PIP_CONFIG_FILE=/dev/null PIP_NO_INDEX=1 PIP_DISABLE_PIP_VERSION_CHECK=1 "$@"
}

# The wheel: its list of files is right, and in a virtual environment without a network the module finds the library
# that is inside. The module of python/ is installed by the tools of Debian, and finds an installed library.
wheel() {
    local python
    has python3 'no wheel is made' || return
    claim 'the wheel has the version' test "$(cat VERSION)" = "$(basename "$1" | cut -d - -f 2)"
    claim 'the wheel lists its files' lists_its_files "$1"
    claim 'the wheel has the licences of what is inside' has_its_licence "$1" licences/library.txt
    if ! python3 -m venv "$room/venv" >/dev/null 2>&1; then
        printf 'SKIPPED: python3 makes no virtual environment, so: the wheel is not installed\n'
        return
    fi
    claim 'the wheel is installed without a network' offline "$room/venv/bin/pip" install "$1"
    claim 'it has faxpages-archive' checks_archive env -u FAXPAGES_LIBRARY "$room/venv/bin/faxpages-archive"
    claim 'an interrupt while faxpages-archive loads modules ends it without a traceback' \
        python3 tests/install/interrupted.py loads "$room/venv/bin/faxpages-archive"
    claim 'it has its manual page' grep -qxF ".Os faxpages $(cat VERSION)" "$room/venv/share/man/man1/faxpages-archive.1"
    claim 'its module finds its library' says_its_library "$room/venv" "$room/venv/lib/"
    claim 'the line of the README in Python reads a damaged fax in an empty folder' reads_a_damaged_fax "$room/venv"
    if ! python=$(python_with setuptools wheel pip venv); then
        printf 'SKIPPED: pip, setuptools and wheel are not installed, so: ./python is not installed\n'
        return
    fi
    "$python" -m venv --system-site-packages --without-pip "$room/venv-of-sources" && cp -r python "$room/python-sources"
    claim 'the module is installed without a network' \
        offline "$room/venv-of-sources/bin/python3" -m pip install --no-build-isolation "$room/python-sources"
    claim 'an interrupt while the one of the sources loads modules ends it without a traceback' env \
        FAXPAGES_LIBRARY="$library_ships/libfaxpages.so.1" \
        python3 tests/install/interrupted.py loads "$room/venv-of-sources/bin/faxpages-archive"
    claim 'it finds an installed library' env FAXPAGES_LIBRARY="$library_ships/libfaxpages.so.1" \
        bash -c 'cd / && "$1" -c "import faxpages"' - "$room/venv-of-sources/bin/python3"
}

# The wheel of the module for CUPS: it goes with the other one, which has nothing of CUPS, and the filter finds both.
wheel_of_cups() {
    has python3 'no wheel of CUPS is made' || return
    claim 'the wheel of CUPS lists its files' lists_its_files "$1"
    claim 'the wheel of CUPS has its licence' has_its_licence "$1" LICENSE
    claim 'the other wheel has nothing of CUPS' bash -c '! python3 -m zipfile -l "$1" | grep -i cups' - "$made"/faxpages-*.whl
    [ -x "$room/venv/bin/pip" ] || return
    claim 'it is installed beside the other' offline "$room/venv/bin/pip" install --no-deps "$1"
    claim 'with what CUPS calls' diff -r -x faxpages_cups -x pyproject.toml cups "$room/venv/share/faxpages/cups"
    claim 'which can be called' test -x "$room/venv/share/faxpages/cups/faxtopdf" -a -x "$room/venv/share/faxpages/cups/faxpages"
    claim 'the backend names its device' names_its_device "$room"/venv/lib/python3.*/site-packages
}

# Whether the backend of the wheel names its device, by the modules in a folder.
names_its_device() {
    local said
    said=$(cd / && FAXPAGES_MODULE=$1 "$room/venv/share/faxpages/cups/faxpages")
    printf '%s\n' "$said"
    [[ $said = *faxpages:/* ]]
}

# Whether the module of a virtual environment says the version, and has loaded the library from below this folder.
says_its_library() {
    local said
    said=$(cd / && env -u FAXPAGES_LIBRARY "$1/bin/python3" -c \
        'import faxpages; print(faxpages.version(), open("/proc/self/maps").read())') &&
        [[ $said = "$(cat VERSION) "* && $said = *" $2"*libfaxpages.so.1* ]]
}

# The line of the README in Python prints the rows of the pages before the damaged one, and the error says what is wrong.
reads_a_damaged_fax() {
    local said pages
    pages=$(shipped/faxpages list samples/damaged-fourth-page.tif | grep -c '^page')
    mkdir -p "$room/empty" && cp samples/damaged-fourth-page.tif "$room/empty/fax.tif" &&
        { echo 'import faxpages' && sed -n 's/^Python  *//p' README.md; } >"$room/empty/read.py" || return
    ! (cd "$room/empty" && env -u FAXPAGES_LIBRARY "$1/bin/python3" read.py >said 2>error) && cat "$room/empty/error" &&
        [ "$pages" = 4 ] && [ "$(wc -l <"$room/empty/said")" = 3 ] && tail -n 1 "$room/empty/error" |
        grep -qx 'faxpages.faults.OutOfRow: page 3 row 5: OutOfRow: A vertical mode leads out of the row, or back.'
}

# Whether the licence of a wheel is this text, but for its first line where that says what makes it.
has_its_licence() {
    python3 - "$1" <<'END' | diff - <(sed '/^Made by tools/d' "$2")
import sys, zipfile
with zipfile.ZipFile(sys.argv[1]) as wheel:
    name = next(name for name in wheel.namelist() if name.endswith(".dist-info/LICENSE"))
    sys.stdout.buffer.write(wheel.read(name))
END
}

# Each file of a wheel stands in its list with its digest and its length, and no other.
lists_its_files() {
    python3 - "$1" <<'END'
import base64, csv, hashlib, sys, zipfile
with zipfile.ZipFile(sys.argv[1]) as wheel:
    record = next(name for name in wheel.namelist() if name.endswith(".dist-info/RECORD"))
    listed = {name: (digest, size) for name, digest, size in csv.reader(wheel.read(record).decode().splitlines())}
    assert sorted(listed) == sorted(wheel.namelist()), listed
    for name in set(listed) - {record}:
        digest = base64.urlsafe_b64encode(hashlib.sha256(wheel.read(name)).digest()).decode().rstrip("=")
        assert listed[name] == (f"sha256={digest}", str(len(wheel.read(name)))), name
    assert any(name.endswith((".so.1", "share/faxpages/cups/faxtopdf")) for name in listed), listed
END
}

# The archive of the sources: where no wheel fits pip builds one of it, by cargo, with Debian's crates and no network; and
# without cargo it says what is needed.
source_archive() {
    local folder=$room/venv-of-archive
    has python3 'no wheel is built of the archive' && has cargo 'no wheel is built of the archive' &&
        works cargo --version || return
    if ! compgen -G '/usr/share/cargo/registry/arrayvec-*' >/dev/null || ! python3 -m venv "$folder" >/dev/null 2>&1; then
        printf "SKIPPED: Debian's crates or virtual environments are not there, so: no wheel is built of the archive\n"
        return
    fi
    mkdir -- "$room/cargo-home" "$room/archives"
    cp -- "$1" "$room/archives"
    printf '%s\n' '[source.crates-io]' 'replace-with = "debian"' '[source.debian]' \
        'directory = "/usr/share/cargo/registry"' >"$room/cargo-home/config.toml"
    claim 'the archive has what pip reads' diff <(tar -xOzf "$1" "faxpages-$(cat VERSION)/PKG-INFO") \
        <(unzipped "$2" METADATA)
    claim 'without cargo pip says what the archive needs' needs_cargo "$folder"
    claim 'pip builds a wheel of the archive' pip_builds "$folder"
    claim 'its module finds the library that was built' says_its_library "$folder" "$folder/lib/"
    claim 'which is not the one that ships' differs "$folder"/lib/python3.*/site-packages/faxpages/libfaxpages.so.1 \
        "$library_ships/libfaxpages.so.1"
    claim 'all else is what the wheel has' has_what_the_wheel_has "$folder"
    claim 'it reads, converts and salvages as the program does' reads_as_the_program "$folder"
    claim 'it has faxpages-archive too' checks_archive env -u FAXPAGES_LIBRARY "$folder/bin/faxpages-archive"
}

# Installs faxpages by its name, from the folder that has the archive, and leaves nothing where it built.
pip_builds() {
    mkdir -p -- "$room/pip-tmp" && offline env TMPDIR="$room/pip-tmp" CARGO_HOME="$room/cargo-home" CARGO_NET_OFFLINE=true \
        "$1/bin/pip" install --no-cache-dir --find-links "$room/archives" faxpages &&
        is_empty "$room/pip-tmp"
}

# The same without cargo on the PATH.
needs_cargo() {
    local said
    ! said=$(offline env PATH=/nonexistent "$1/bin/python3" -m pip install --no-cache-dir --find-links "$room/archives" \
        faxpages 2>&1) && printf '%s\n' "$said" && grep -q 'that needs cargo with Rust 1\.73 or later' <<<"$said"
}

differs() {
    [ -s "$1" ] && ! cmp -s -- "$1" "$2"
}

# The file of a wheel's own folder that is called so.
unzipped() {
    python3 -c 'import sys, zipfile
with zipfile.ZipFile(sys.argv[1]) as wheel:
    print(wheel.read(next(it for it in wheel.namelist() if it.endswith(".dist-info/" + sys.argv[2]))).decode(), end="")' "$@"
}

# The files of the module are those of the sources, but for the library.
has_what_the_wheel_has() {
    local there
    there=$(echo "$1"/lib/python3.*/site-packages/faxpages) &&
        diff -r -x __pycache__ -x libfaxpages.so.1 python/faxpages "$there" &&
        grep -qxF ".Os faxpages $(cat VERSION)" "$1/share/man/man1/faxpages-archive.1"
}

# Of each sample the module prints what the program does.
reads_as_the_program() {
    local file
    for file in samples/*.tif; do
        (cd / && env -u FAXPAGES_LIBRARY "$1/bin/python3" - "$root/$file" >"$room/by-module" <<'END'
import sys
import faxpages
try:
    for row in faxpages.open(sys.argv[1]).rows():
        print("row", row.page, row.number, *row.runs())
    print("end")
except faxpages.Fault as fault:
    print("fault", fault.line)
END
        ) || return
        "$ships" rows "$file" 2>&1 | grep -v '^next ' | diff - "$room/by-module" || return
    done
}
