# What tests/install/run tries of the packages for Debian. It is sourced, and takes the functions and the folder `room` of
# that script.

debian() {
    claim 'the .deb unpacks' dpkg-deb -x "$1" "$room/debian"
    claim 'the .deb runs' runs "$room/debian/usr/bin"
    claim 'the .deb has the version' test "$(cat VERSION)" = "$(dpkg-deb -f "$1" Version)"
    if is_static "${ships%/*}"; then
        claim 'the .deb needs nothing else' test -z "$(dpkg-deb -f "$1" Depends)"
    else
        claim 'the .deb needs a C library' bash -c \
            'dpkg-deb -f "$1" Depends | grep -qE "^libc6 \(>= 2\.[0-9]+\)$"' - "$1"
    fi
    claim 'the .deb has the digests of its files' has_md5sums "$1" "$room/debian"
    claim 'the .deb has the licences of what is inside' has_licence "$room/debian" faxpages licences/program.txt
    claim 'the .deb names what of Debian is inside' names_parts "$(dpkg-deb -f "$1" Built-Using)"
    claim 'each script has a manual page there' leads_to_pages "$room/debian/usr/share/man/man1" 'faxpages-*.1.gz' \
        "$(find recipes -name 'faxpages-*' -perm /111 | wc -l)"
    claim 'the .deb has usual permissions' has_modes "$room/debian/usr"
    claim 'zsh finds its completions there' test -f "$room/debian/usr/share/zsh/vendor-completions/_faxpages"
    ! has lintian 'the .deb is not linted' || claim 'lintian finds no error' lintian --fail-on error "$1"
}

# Whether the licence of a package is this text, but for its first line where that says what makes it.
has_licence() {
    diff "$1/usr/share/doc/$2/copyright" <(sed -e '/^Made by tools/d' \
        -e 's|in LICENSE-LGPL-2.1\.|in /usr/share/common-licenses/LGPL-2.1.|' "$3")
}

# Whether a field Built-Using names glibc and gcc in the versions that the program's text has; nothing where the C library
# is none of Debian's, or not inside.
names_parts() {
    printf '%s\n' "$1"
    if grep -q '^libc .*(Debian GLIBC ' "${ships%/*}/faxpages.txt" && grep -q '^gcc (Debian ' "${ships%/*}/faxpages.txt"; then
        [[ $1 =~ ^gcc-[0-9]+\ \(=\ ([^\)]+)\),\ glibc\ \(=\ ([^\)]+)\)$ ]] &&
            grep -qF "(Debian GLIBC ${BASH_REMATCH[2]})" "${ships%/*}/faxpages.txt" &&
            grep -qF "gcc (Debian ${BASH_REMATCH[1]})" "${ships%/*}/faxpages.txt"
    else
        [ -z "$1" ]
    fi
}

# Whether a package has the digest of each of its files: has_md5sums PACKAGE TREE.
has_md5sums() {
    dpkg-deb --ctrl-tarfile "$1" | tar -xO ./md5sums >"$room/md5sums" &&
        (cd "$2" && md5sum --check --quiet "$room/md5sums" &&
            diff <(find usr -type f | sort) <(cut -c 35- "$room/md5sums" | sort))
}

# Whether the packages of a folder have no file in common, so that all can be installed.
share_no_file() {
    local package
    for package in "$1"/*.deb; do
        dpkg-deb -c "$package" | awk '!/\/$/ { print $6 }'
    done | sort | uniq -d | tee "$room/twice"
    [ ! -s "$room/twice" ]
}

# Whether a folder has at least so many manual pages of these names, each of which can be read.
leads_to_pages() {
    local page
    [ "$(find "$1" -name "$2" | wc -l)" -ge "$3" ] || return
    for page in "$1"/*; do
        gzip -cd "$page" | grep -q . || return
    done
}

# Whether a command, faxpages-archive, says that some of the samples are faulty.
checks_archive() {
    rm -f -- "$room/archive.sqlite"
    "$@" check samples --table "$room/archive.sqlite"
    [ $? = 1 ]
}

# Whether nothing is left when the package is removed after the module was compiled, without a system of its own.
module_goes() {
    local tree=$room/system module=usr/lib/python3/dist-packages/faxpages
    mkdir -p "$tree/var/lib/dpkg"
    touch "$tree/var/lib/dpkg/status"
    set -- dpkg --root="$tree" --log=/dev/null --force-script-chrootless --force-depends --force-not-root \
        --force-bad-path "$@"
    "$@" || return
    python3 -m compileall -q "$tree/$module" && [ -d "$tree/$module/archive/__pycache__" ] || return
    "${@:1:$# - 2}" -r python3-faxpages
    [ ! -e "$tree/$module" ]
}

# Whether Python finds the package of a module in a folder, with this version, and no list of files.
tells_its_version() {
    (cd / && PYTHONPATH="$1" FAXPAGES_LIBRARY="$library_ships/libfaxpages.so.1" python3 -B - "$2") <<'END'
import sys
from importlib import metadata
import faxpages
about = metadata.distribution("faxpages")
assert metadata.version("faxpages") == faxpages.__version__ == sys.argv[1], about.version
assert about.metadata["Summary"] and about.metadata["Requires-Python"] and about.files is None, list(about.metadata)
END
}

# Whether the filter, the backend, their types and the queue's options are where CUPS looks, and the manual page.
has_cups() {
    cmp cups/faxtopdf "$1/lib/cups/filter/faxtopdf" && [ -x "$1/lib/cups/filter/faxtopdf" ] &&
        cmp cups/faxpages "$1/lib/cups/backend/faxpages" && [ -x "$1/lib/cups/backend/faxpages" ] &&
        cmp cups/faxpages.types "$1/share/cups/mime/faxpages.types" &&
        cmp cups/faxpages.convs "$1/share/cups/mime/faxpages.convs" &&
        cmp cups/fax.ppd "$1/share/ppd/faxpages/fax.ppd" &&
        diff -r -x __pycache__ cups/faxpages_cups "$1/lib/python3/dist-packages/faxpages_cups" &&
        gzip -cd "$1/share/man/man1/faxpages-cups.1.gz" | grep -qxF ".Os faxpages $(cat VERSION)"
}

# The packages of the library: what is in each, on what it stands, and that it is as Debian wants it.
debian_library() {
    local name file modes
    for name in libfaxpages1 libfaxpages-dev python3-faxpages faxpages-cups; do
        modes=has_modes_of_data
        case $name in python3-faxpages | faxpages-cups) modes=has_modes ;; esac
        for file in "$1/${name}_$2"_*.deb; do
            claim "$name unpacks" dpkg-deb -x "$file" "$room/$name"
            claim "$name has the version" test "$2" = "$(dpkg-deb -f "$file" Version)"
            claim "$name has usual permissions" "$modes" "$room/$name/usr"
            claim "$name has the digests of its files" has_md5sums "$file" "$room/$name"
            case $name in
            lib*) claim "$name has the licences of what is inside" has_licence "$room/$name" "$name" licences/library.txt ;;
            *) claim "$name has its licence" has_licence "$room/$name" "$name" LICENSE ;;
            esac
            ! has lintian "$name is not linted" || claim "lintian finds no error in $name" lintian --fail-on error "$file"
        done
    done
    for name in libfaxpages1 libfaxpages-dev; do
        claim "$name goes beside that of another machine" test same = "$(dpkg-deb -f "$1/${name}_$2_amd64.deb" Multi-Arch)"
    done
    claim 'what is for all machines says nothing of one' bash -c '! dpkg-deb -f "$1" | grep -iE "SSE|proved\.$|plain Rust"' - \
        "$1/python3-faxpages_$2_all.deb"
    claim 'libfaxpages1 has the shared library' \
        cmp "$library_ships/libfaxpages.so.1" "$room/libfaxpages1/usr/lib/x86_64-linux-gnu/libfaxpages.so.1"
    claim 'libfaxpages1 needs a C library' bash -c \
        'dpkg-deb -f "$1" Depends | grep -qE "^libc6 \(>= 2\.[0-9]+(\.[0-9]+)?\)$"' - "$1/libfaxpages1_$2_amd64.deb"
    claim 'libfaxpages-dev has the header' cmp include/faxpages.h "$room/libfaxpages-dev/usr/include/faxpages.h"
    claim 'libfaxpages-dev needs libfaxpages1' \
        test "libfaxpages1 (= $2)" = "$(dpkg-deb -f "$1/libfaxpages-dev_$2_amd64.deb" Depends)"
    claim 'python3-faxpages has the module' \
        cmp python/faxpages/__init__.py "$room/python3-faxpages/usr/lib/python3/dist-packages/faxpages/__init__.py"
    claim 'each call has a manual page there' \
        leads_to_pages "$room/libfaxpages-dev/usr/share/man/man3" 'faxpages_*.3.gz' 11
    ! has python3 'the module is not compiled' || claim 'python3-faxpages leaves nothing when it is removed' \
        module_goes -i "$1/python3-faxpages_$2_all.deb"
    ! has python3 'the version of the module is not asked for' || claim 'python3-faxpages tells its version' \
        tells_its_version "$room/python3-faxpages/usr/lib/python3/dist-packages" "$2"
    ! has python3 'faxpages-archive is not run' || claim 'python3-faxpages has faxpages-archive' checks_archive env \
        PYTHONPATH="$room/python3-faxpages/usr/lib/python3/dist-packages" PYTHONDONTWRITEBYTECODE=1 \
        FAXPAGES_LIBRARY="$library_ships/libfaxpages.so.1" python3 "$room/python3-faxpages/usr/bin/faxpages-archive"
    # Here the module is not where Python finds it of itself.
    sed '1s/ -I$//' "$room/python3-faxpages/usr/bin/faxpages-archive" >"$room/faxpages-archive"
    chmod 755 "$room/faxpages-archive"
    ! has /usr/bin/python3 'no interrupt comes to faxpages-archive' || claim 'an interrupt at any time ends it so' env \
        PYTHONPATH="$room/python3-faxpages/usr/lib/python3/dist-packages" PYTHONDONTWRITEBYTECODE=1 \
        FAXPAGES_LIBRARY="$library_ships/libfaxpages.so.1" \
        python3 tests/install/interrupted.py starts "$room/faxpages-archive"
    claim 'the module goes with no older faxpages-cups' test "faxpages-cups (<< $2)" = \
        "$(dpkg-deb -f "$1/python3-faxpages_$2_all.deb" Breaks)"
    claim 'faxpages-cups has its files where CUPS looks' has_cups "$room/faxpages-cups/usr"
    claim 'no file is in two packages' share_no_file "$1"
    claim 'the program has no file of the library' test ! -e "$room/debian/usr/lib" -a ! -e "$room/debian/usr/include"
}
