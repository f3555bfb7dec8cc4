# The module for Python. tests/library/run has the library, the program and the files.
# shellcheck shell=bash disable=SC2154

# The README's line in Python prints the width and the runs of each page of a fax.
readme_in_python() {
    mkdir -p "$room/python" && cp samples/three-mmr-rows.tif "$room/python/fax.tif" || return
    (cd "$room/python" && { echo 'import faxpages' && sed -n 's/^Python  *//p' "$OLDPWD/README.md"; } >line.py &&
        PYTHONPATH=$OLDPWD/python python3 line.py >got && "$program" rows fax.tif | awk '/^row/ {
            for (i = 4; i <= NF; i++) width += (NR == 1) * $i
            line = $4; for (i = 5; i <= NF; i++) line = line ", " $i
            all = all (NR > 1 ? ", " : "") "[" line "]" } END { print width, "[" all "]" }' | diff - got)
}

# Makes the library as a later version may be, once.
later_library() {
    [ -f "$room/later/libfaxpages.so.1" ] || tests/library/later "$folder" "$room/later"
}

later_in_python() {
    later_library && FAXPAGES_LIBRARY=$room/later/libfaxpages.so.1 python3 tests/library/later.py
}

# Debian's Python too, where the one on the PATH is another.
find_pythons() {
    local debian=/usr/bin/python3 place='import sys; print(sys.executable)'
    pythons=(python3)
    [ ! -x "$debian" ] || [ "$(python3 -c "$place")" = "$("$debian" -c "$place")" ] || pythons+=("$debian")
}

# The Python module in all its ways: in threads for ten seconds in all, through processes, with wrong numbers, and with
# every public name.
module_keeps_its_word() {
    local python about seconds=$((10 / ${#pythons[@]} / share))
    for python in "${pythons[@]}"; do
        about=$(about "$python")
        claim "threads share a fax, $about" "$python" tests/library/threaded.py "$seconds"
        claim "all that is public is pickled and copied, $about" "$python" tests/library/copied.py samples
        claim "numbers that are out of range are refused, $about" \
            "$python" tests/library/ranges.py tests/runs/inputs/three-whole-pages.tif
        claim "what is handed in is taken as it is, or refused in words, $about" \
            "$python" tests/library/handed.py "$(cat VERSION)"
        claim "every public name is used, $about" env PYTHONPATH=python \
            "$python" tests/library/typed.py tests/runs/inputs/three-whole-pages.tif samples/damaged-fourth-page.tif
        claim "the examples of every public name, $about" "$python" tests/library/doctests.py
    done
}

about() {
    "$1" -c 'import platform; print("Python", platform.python_version(), "of", __import__("sys").prefix)'
}

# Pages as images and arrays, and Pillow's plugin, by each Python that has what they need.
images_keep_their_word() {
    local python about
    with_module img2pdf 'no PDF is made with the plugin for Pillow'
    with_module numpy 'no array is made'
    with_module PIL 'no image is made, and Pillow reads no fax'
    has tiffcp 'tiles, BigTIFF and small strips are not tried with the plugin for Pillow' || :
    for python in "${found[@]}"; do
        about=$(about "$python")
        claim "a page is an image of Pillow, $about" picture_is_right "$python"
        claim "pages are images and arrays, and are read by Pillow, $about" \
            "$python" tests/library/images.py "${files[@]}"
        claim "Pillow does the same with the plugin, and refuses damage, $about" \
            "$python" tests/library/plugin.py "${files[@]}"
    done
}

# Which Pythons have a module; where none has it, what is left out is said: with_module MODULE WHAT.
with_module() {
    local python
    found=()
    for python in "${pythons[@]}"; do
        ! "$python" -c "import $1" 2>/dev/null || found+=("$python")
    done
    [ ${#found[@]} != 0 ] || printf 'SKIPPED: %s is not installed, so: %s\n' "$1" "$2"
}

picture_is_right() {
    local file=samples/three-mmr-rows.tif
    PYTHONPATH=python "$1" tests/library/pictured.py "$file" "$room/picture.pbm" &&
        "$program" convert -o pbm "$file" | cmp - "$room/picture.pbm"
}

# Types by mypy --strict: of the module, whatever is known of Pillow and numpy here.
types_are_right() {
    MYPYPATH=python mypy --cache-dir=/dev/null --strict python/faxpages cups/faxpages_cups
}

# Where the types of Pillow and numpy are known, an image is one of Pillow's, and an array one of numpy's; and nothing
# is Any in a program that uses every public name.
images_are_pillows() {
    mkdir -p -- "$room/types/PIL" "$room/types/numpy" && : >"$room/types/PIL/__init__.pyi" &&
        printf '%s\n' 'class Image:' '    info: dict[str, object]' \
            '    def save(self, name: str, format: str) -> None: ...' \
            '    def convert(self, mode: str) -> Image: ...' \
            '    def paste(self, colour: int, box: tuple[int, int, int, int]) -> None: ...' \
            'def frombytes(mode: str, size: tuple[int, int], data: bytes, *words: str) -> Image: ...' \
            'def new(mode: str, size: tuple[int, int]) -> Image: ...' >"$room/types/PIL/Image.pyi" &&
        printf '%s\n' 'from typing import Generic, TypeVar' 'T = TypeVar("T")' 'class uint8: ...' 'class bool_: ...' \
            'class ndarray(Generic[T]):' '    __array_interface__: dict[str, object]' \
            '    def reshape(self, rows: int, stride: int) -> ndarray[T]: ...' \
            '    def __setitem__(self, rows: slice, item: bool) -> None: ...' \
            'def zeros(size: int, kind: type[T]) -> ndarray[T]: ...' \
            'def frombuffer(data: bytes, kind: type[T]) -> ndarray[T]: ...' >"$room/types/numpy/__init__.pyi" &&
        printf '%s\n' 'import numpy' 'NDArray = numpy.ndarray' >"$room/types/numpy/typing.pyi" &&
        printf '%s\n' 'import faxpages' 'page = faxpages.open(b"").page(0)' 'reveal_type(page.image())' \
            'reveal_type(page.array(partial=True))' 'faxpages.encode([page.image(), page.array()])' \
            'faxpages.open(page.array())' >"$room/image.py" || return
    MYPYPATH=python:$room/types mypy --cache-dir=/dev/null --strict python/faxpages tests/library/typed.py \
        tests/library/pictured.py "$room/image.py" | tee "$room/types/said"
    [ "${PIPESTATUS[0]}" = 0 ] && grep -qF '"PIL.Image.Image"' "$room/types/said" &&
        grep -qF '"numpy.ndarray[numpy.uint8]"' "$room/types/said"
}

# The example in Python names the samples that are damaged, as the program does, and says in a sentence what is wrong.
sweep_is_right() {
    local file
    PYTHONPATH=python python3 examples/sweep.py samples >"$room/swept"
    for file in samples/*.tif samples/*/*.tif; do
        "$program" check "$file" 2>&1 >/dev/null | sed "s|^fault |$file: |"
    done | diff - <(sed -n 's/^\(samples[^:]*: page [0-9]* row [0-9]*: [A-Za-z0-9 ]*\): [A-Z].*\.$/\1/p' "$room/swept")
}
