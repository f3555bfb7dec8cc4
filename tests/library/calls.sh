# Callers of the library in C. tests/library/run has the library, the program and the files.
# shellcheck shell=bash disable=SC2154

# Rows by places that went through their text: each place is the one that the program prints with --long. The caller
# prints rows and places: places_are_the_programs CALLER..
places_are_the_programs() {
    local file
    for file in samples/three-mmr-rows.tif samples/damaged-fourth-page.tif tests/runs/inputs/rows-three-strips.tif; do
        "$@" places "$file" >"$room/got" || return
        [ -s "$room/got" ] || return
        while read -r _ page row && read -r _ place; do
            "$program" rows --long --cursor "1:$page:$row" --max 1 "$file" | tail -n 1 >"$room/wanted"
            printf 'next %s\n' "$place" | diff - "$room/wanted" || return
        done <"$room/got"
    done
}

# The header by a compiler, as a language: header COMPILER WORDS..
header() {
    printf '#include <faxpages.h>\nint main(void) { return faxpages_version() == 0; }\n' >"$room/one.$2"
    "$1" "${@:3}" -Wall -Wextra -pedantic -Werror -Iinclude -c -o "$room/one.o" "$room/one.$2"
}

# Each number of the header's faults with its name, which the library has to write; no other number has one.
names_of_header() {
    sed -n 's/^    FAXPAGES_\([A-Z0-9_]*\) = \([0-9]*\),*$/\2 \1/p' include/faxpages.h |
        awk '$1 > 7 || $2 ~ /^(SHORT|BYTE|MAGIC|NO_DIRECTORY|DIRECTORY|MISSING)/ {
            sub(/^PBM_/, "", $2); name = ""; count = split(tolower($2), part, "_")
            for (i = 1; i <= count; i++) name = name toupper(substr(part[i], 1, 1)) substr(part[i], 2)
            print $1, name }'
}

names_are_the_headers() {
    names_of_header >"$room/names" && "$room/names-caller" >"$room/names-got" && diff "$room/names" "$room/names-got"
}

# The faults of the definitions, with their numbers.
numbers_are_the_definitions() {
    sed -n -e 's/^fault_number (\(File\|Strip\) (\?\(file\|strip\)\.\([A-Za-z]*\).* = \([0-9]*\)$/\4 \3/p' \
        -e 's/^pbm_fault_number pbm\.\([A-Za-z]*\) = \([0-9]*\)$/\2 \1/p' \
        -e 's/^too_many_rows_number = \([0-9]*\)$/\1 TooManyRows/p' \
        -e 's/^unknown_input_number = \([0-9]*\)$/\1 UnknownInput/p' \
        -e 's/^output_too_large_number = \([0-9]*\)$/\1 OutputTooLarge/p' \
        crates/fax_c/specs/FaultNumbers.antt | diff "$room/names" -
}

version_is() {
    local number
    number=$(awk -F. '{ print $1 * 10000 + $2 * 100 + $3 }' VERSION)
    "$room/names-caller" version | diff - <(printf '%s %s\n' "$number" "$(cat VERSION)")
}

# The module and the crate have the version of the sources.
versions_agree() {
    grep -qx "version = \"$(cat VERSION)\"" python/pyproject.toml &&
        [ "$(grep -cE "(^version = \"|\"faxpages == )$(cat VERSION)\"" cups/pyproject.toml)" = 2 ] &&
        grep -qx "version = \"$(cat VERSION)\"" rust/Cargo.toml && grep -qx "version = \"$(cat VERSION)\"" rust/sys/Cargo.toml &&
        [ "$(grep -c "version = \"=\\?$(cat VERSION)\"" rust/Cargo.toml)" = 6 ] &&
        grep -qx "__version__ = \"$(cat VERSION)\"" python/faxpages/__init__.py
}

# The structs of the header have their members where docs/STRUCTS.md has them: structs_lie_so COMPILER WORD..
structs_lie_so() {
    tests/documents/structs.py --asserts >"$room/structs.c" && [ "$(grep -c _Static_assert "$room/structs.c")" -gt 70 ] &&
        "$@" -std=c11 -ffreestanding -Wall -Werror -Iinclude -fsyntax-only "$room/structs.c"
}

# The header has the version of the sources, as text and as a number.
header_has_the_version() {
    printf '%s\n' '#include <faxpages.h>' 'FAXPAGES_VERSION FAXPAGES_VERSION_NUMBER' >"$room/version.c"
    [ "$(gcc -E -P -Iinclude "$room/version.c" | tail -n 1)" = \
        "\"$(cat VERSION)\" $(awk -F. '{ print $1 * 10000 + $2 * 100 + $3 }' VERSION)" ]
}

# Strings of the program and of the shared library tell their version.
strings_tell_the_version() {
    local name file
    for file in "$program" "$library"; do
        name=faxpages
        [ "$file" = "$program" ] || name=libfaxpages
        strings -a "$file" | grep -qxF "{\"type\":\"generic\",\"name\":\"$name\",\"version\":\"$(cat VERSION)\"}" || return
    done
}

only_calls_are_visible() {
    diff <(nm -D --defined-only "$library" | awk '{ print $3 }' | sort) \
        <(grep -oE '\bfaxpages_[a-z_]+\(' include/faxpages.h | tr -d '(' | sort -u) &&
        diff <(nm -g --defined-only "$folder/libfaxpages.a" | awk 'NF == 3 { print $3 }' | sort) \
            <(nm -D --defined-only "$library" | awk '{ print $3 }' | sort)
}

nothing_else_is_called() {
    diff <(nm -D --undefined-only "$library" | awk '{ print $2 }' | sed 's/@.*//' | sort) \
        <(printf '%s\n' free malloc memcpy memmove memset realloc)
}

# Each kind of a note in the header with its name, which the library has to write; and each status.
names_of_notes() {
    sed -n 's|^    FAXPAGES_\([A-Z0-9_]*\) = \([1-6]\),* */\* N.*|\2 \1|p' include/faxpages.h | in_words
}

names_of_statuses() {
    sed -n '/^enum faxpages_status/,/^}/s/^    FAXPAGES_\([A-Z_]*\) = \([0-9]*\).*/\2 \1/p' include/faxpages.h | in_words
}

# The names of a header, as NO_ROOM, as the library writes them, as NoRoom.
in_words() {
    awk '{ name = ""; count = split(tolower($2), part, "_")
        for (i = 1; i <= count; i++) name = name toupper(substr(part[i], 1, 1)) substr(part[i], 2)
        print $1, name }'
}

names_of_both_are_the_headers() {
    names_of_statuses | diff - <("$room/names-caller" statuses) && names_of_notes | diff - <("$room/names-caller" notes)
}

# How many instructions a program takes.
instructions() {
    valgrind --tool=cachegrind --cache-sim=no --cachegrind-out-file=/dev/null "$@" 2>&1 >/dev/null |
        sed -n 's/.*I *refs: *//p' | tr -d ,
}

# A loop over four times as many rows, of which few have room in a call, takes four times as many instructions.
loop_is_linear() {
    local few many
    [ "$("$room/loops" "$1" 160000 "$2" | cut -d ' ' -f -2)" = '160000 rows' ] || return
    few=$(instructions "$room/loops" "$1" 40000 "$2") && many=$(instructions "$room/loops" "$1" 160000 "$2") || return
    printf '%s: %s and %s instructions\n' "$1" "$few" "$many"
    [ $((many)) -gt 0 ] && [ $((many)) -lt $((5 * few)) ]
}

# The stack, the rows and the texts of places keep to what the header says.
limits_are_the_headers() {
    local file most
    most=$(sed -n 's/.* \([0-9]*\) KB of stack.*/\1/p' <(tr '\n*' '  ' <include/faxpages.h | tr -s ' '))
    for file in "${files[@]}"; do
        [ "$("$room/limits" "$file")" -le $((1024 * most)) ] || { printf '%s: more than %s KB\n' "$file" "$most" && return 1; }
    done
}

# Each refusal of memory in turn: the calls go on from what they told, and leave nothing.
goes_on_after_refusals() {
    local file
    for file in "${files[@]}"; do
        "$room/refused" "$file" || { printf '%s: status %s\n' "$file" "$?" && return 1; }
    done
}

# What is left of each file by the calls is what the program says; error line and status are those of `rows` there.
left_is_the_programs() {
    local file
    for file in "${files[@]}" samples/received/*.tif tests/runs/damaged/*.tif; do
        "$room/salvaged" pages "$file" >"$room/got" || return
        "$program" salvage "$file" >"$room/wanted" 2>"$room/wanted.error"
        cmp "$room/got" "$room/wanted" || return
    done
}

# The same is left of a strip alone as of a file that has it.
strips_are_left_as_pages() {
    local file
    for file in "${files[@]}"; do
        "$room/salvaged" strips "$file" >>"$room/strips-left" || return
    done
    [ -s "$room/strips-left" ]
}

# Strips and files that are coded from rasters are those that are converted.
rasters_are_coded_as_files() {
    local file
    for file in "${files[@]}"; do
        "$room/rasters" strips "$file" || return
        "$room/rasters" anew "$file" || return
    done >"$room/ways"
    # A file that is damaged is tried in no way.
    [ "$(grep -c '^30 ways$' "$room/ways")" -ge 60 ]
}

# Files whose pages were counted last are the converted ones; of those of a stranger many are ended, and many not.
pages_are_ended() {
    "$room/ended" "$1" | tee "$room/tried" &&
        awk -v drawn="$1" '{ exit !($1 == 400 && $3 > drawn / 4 && $5 > drawn / 4) }' "$room/tried"
}

# Strips that are drawn are read, checked and coded as the plain readers and coders do.
strips_are_plain() {
    local drawn=$1
    python3 tests/library/drawn.py "$drawn" >"$room/drawn" && "$room/strips" <"$room/drawn" | tee "$room/tried" &&
        awk -v drawn="$drawn" '{ exit !($1 > drawn / 2 && $3 == drawn && $5 == drawn) }' "$room/tried"
}

# Strips whose rows nobody counted end as the plain reader says, whole, cut at each byte, and while their bytes come in: C,
# Python and Rust tell the same of the same strips. ends_are_plain CALLER..
ends_are_plain() {
    local drawn=$((1500 / share))
    [ -s "$room/ends-drawn" ] || python3 tests/library/ends.py "$drawn" >"$room/ends-drawn" || return
    "$@" <"$room/ends-drawn" | tee "$room/tried" && awk -v drawn="$drawn" '{ exit !($1 == drawn && $3 > 20 * drawn) }' "$room/tried"
}

# What is left of damaged strips and pages is what the plain reading finds, by C, Python and Rust, which are given the same:
# left_is_plain CALLER..
left_is_plain() {
    local drawn=$((8000 / share))
    [ -s "$room/damaged" ] || python3 tests/library/damaged.py "$drawn" >"$room/damaged" || return
    "$@" <"$room/damaged" | tee "$room/tried" &&
        awk -v drawn="$drawn" '{ exit !($1 == drawn - int((drawn + 7) / 8) && $3 > drawn / 8 && $5 > drawn / 80) }' "$room/tried"
}

valgrind_is_silent_over_strips() {
    python3 tests/library/drawn.py 100 >"$room/drawn" &&
        valgrind_is_silent memcheck --leak-check=full "$room/strips" <"$room/drawn"
}

# What the receivers of drawn pages counted of bad rows is what the plain reading finds, by C, Python and Rust, which are
# given the same: receivers_are_plain CALLER..
receivers_are_plain() {
    local drawn=$((4000 / share))
    [ -s "$room/receivers" ] || python3 tests/library/receivers.py "$drawn" >"$room/receivers" || return
    "$@" <"$room/receivers" | tee "$room/tried" &&
        awk -v drawn="$drawn" '{ exit !($1 > 2 * drawn && $3 > drawn && $5 > 2 * drawn) }' "$room/tried"
}

# valgrind finds nothing, in any memory, at places, in a check, where memory is refused, and in threads.
valgrind_is_silent() {
    local tool=$1 status
    valgrind -q --error-exitcode=99 --tool="$tool" "${@:2}" >/dev/null 2>"$room/found"
    status=$?
    cat "$room/found"
    [ "$status" -lt 90 ]
}

in_c() {
    claim 'the caller in C is compiled' compile "$room/rows" tests/library/rows.c || return
    over_all 'C, a page a call' rows "$room/rows" pages
    over_all 'C, rows over pages' rows "$room/rows" all
    over_all 'C, from place to place' rows "$room/rows" from
    claim 'the caller of checks is compiled' compile "$room/check" tests/library/check.c
    over_all 'C, a check' check "$room/check"
    claim 'places as text are those of the program' places_are_the_programs "$room/check"
    claim 'the caller of names is compiled' compile "$room/names-caller" tests/library/names.c
    claim 'the names of faults are those of the header' names_are_the_headers
    claim 'the numbers of faults are those of the definitions' numbers_are_the_definitions
    claim 'the names of statuses and notes are those of the header' names_of_both_are_the_headers
    claim 'the version is that of the sources' version_is
    claim 'the caller at places is compiled' compile "$room/places" tests/library/places.c
    claim 'places, rooms of 0 and what is told are as the header says' "$room/places"
    claim 'the caller of rasters is compiled' compile "$room/rasters" tests/library/rasters.c
    over_all 'C, pages into rasters' rows "$room/rasters" pages
    claim 'rasters are coded as files are converted' rasters_are_coded_as_files
    claim 'the caller of what is left is compiled' compile "$room/salvaged" tests/library/salvaged.c
    claim 'what is left of damaged pages is what the program says' left_is_the_programs
    claim 'the same is left of a strip alone as of a file that has it' strips_are_left_as_pages
    claim 'the caller that does not know how many pages come is compiled' compile "$room/ended" tests/library/ended.c
    claim '400 files whose pages are counted last, and thousands of a stranger' pages_are_ended $((4000 / share))
    claim 'the caller of strips is compiled' compile "$room/strips" tests/library/strips.c
    if has python3 'no strips are drawn'; then
        claim "$((6000 / share)) drawn strips" strips_are_plain $((6000 / share))
    fi
    claim 'the caller of strips that nobody counted is compiled' compile "$room/ends" tests/library/ends.c
    if has python3 'no strips are drawn whose rows nobody counted'; then
        claim 'drawn strips whose rows nobody counted' ends_are_plain "$room/ends"
    fi
    claim 'the caller of what is left is compiled' compile "$room/left" tests/library/left.c
    if has python3 'no damaged strips are drawn'; then
        claim 'what is left of drawn strips and files' left_is_plain "$room/left"
    fi
    claim 'the caller of what receivers counted is compiled' compile "$room/receivers-caller" tests/library/received.c
    if has python3 'no pages of receivers are drawn'; then
        claim 'what the receivers of drawn pages counted' receivers_are_plain "$room/receivers-caller"
    fi
    claim 'the caller of answers is compiled' compile "$room/answers" tests/library/answers.c
    claim 'answers are those of the header' "$room/answers"
    claim 'the caller of loops is compiled' compile "$room/loops" tests/library/loops.c
    claim 'the caller that is refused memory is compiled' compile "$room/refused" tests/library/refused.c
    claim 'calls go on after memory was refused' goes_on_after_refusals
    claim 'the caller at the limits is compiled' compile "$room/limits" tests/library/limits.c -lpthread
    claim 'stack, rows and texts keep to what the header says' limits_are_the_headers
    claim 'the caller in threads is compiled' compile "$room/threads" tests/library/threads.c -lpthread
    claim 'four threads get what one gets' "$room/threads" samples/damaged-fourth-page.tif
    claim 'the example in C is compiled' compile "$room/received" examples/received.c
    claim 'the example in C says which faxes are damaged' received_is_right
    claim 'the example in C of pages is compiled' compile "$room/coverage" examples/coverage.c
    claim 'the example in C of pages counts black pels' coverage_is_right
    claim 'the reader of rows is compiled' compile "$room/handle" tests/library/handle.c
    claim 'rows by the reader, of all files, of none, and of one of many rows' reader_reads_as_the_program
    claim 'the lines of faxpages_reader.h read a damaged fax' reader_says_fault
    claim 'the short program in C is compiled' compile "$room/left-in-c" examples/left/left.c
    claim 'the short program in C prints and copies what is left' tests/library/copies "$program" examples/left/left.c \
        "$room/left-in-c"
    claim 'the examples of faxpages(3) and the README print rows' examples_print_rows
    claim 'the other examples of faxpages(3) are compiled' other_examples_are_compiled
    claim 'the example in C of a receiver is compiled' compile "$room/receive" examples/receive.c
    claim 'the example in C of data of PDFs is compiled' compile "$room/ccitt" examples/ccitt.c
    claim 'the example in C of data of PDFs writes them and reads them' ccitt_is_right
    claim 'the example in C of data of PDFs says what is missing' ccitt_says_what_is_missing
    if has python3 'no page is sent'; then
        claim 'the example in C of a receiver says what is missing' receiver_says_what_is_missing
        claim 'the loop of faxpages(3) that receives ends where the line drops' loop_of_the_manual_ends
        claim 'the loop of faxpages(3) reads no long row for each piece' loop_of_the_manual_is_not_quadratic
        claim 'the example in C of a receiver says that memory was refused' receiver_says_that_memory_was_refused
        claim 'the example in C of a receiver reads what is sent' received_as_sent 0
        claim 'the example in C of a receiver goes on after a damaged row' received_as_sent 1
        claim 'the example in C of a receiver goes on after an EOL too many' received_as_sent 2
        claim 'the example in C of a receiver makes one file of all pages' receives_pages 0
        claim 'the example in C of a receiver loses no page after a damaged one' receives_pages 2
    fi
    if whole && has valgrind 'memory, threads and the instructions of loops are not watched'; then
        claim 'a loop of packed rows is linear' loop_is_linear rows 128
        claim 'a loop of runs is linear' loop_is_linear runs 128
        claim 'a loop of changing elements is linear' loop_is_linear changes 128
        claim 'a loop over a bare strip is linear' loop_is_linear strip 128
        claim 'valgrind, answers' valgrind_is_silent memcheck --leak-check=full "$room/answers"
        claim 'valgrind, rows by a handle' valgrind_is_silent memcheck --leak-check=full "$room/handle" \
            samples/three-pages.tif
        if has python3 'no strips are drawn'; then
            claim 'valgrind, drawn strips' valgrind_is_silent_over_strips
        fi
        claim 'valgrind, rasters' valgrind_is_silent memcheck --leak-check=full "$room/rasters" anew \
            tests/runs/inputs/three-whole-pages.tif
        claim 'valgrind, what is left' valgrind_is_silent memcheck --leak-check=full "$room/salvaged" strips \
            samples/three-mmr-rows.tif
        claim 'valgrind, pages that are counted last' valgrind_is_silent memcheck --leak-check=full "$room/ended" 100
        claim 'valgrind, places' valgrind_is_silent memcheck --leak-check=full "$room/places"
        claim 'valgrind, rows' valgrind_is_silent memcheck --leak-check=full "$room/rows" from samples/damaged-fourth-page.tif
        claim 'valgrind, a check' valgrind_is_silent memcheck --leak-check=full "$room/check" samples/return-to-control.tif
        claim 'valgrind, threads' valgrind_is_silent helgrind "$room/threads" samples/three-mmr-rows.tif
    fi
    if [ -z "${FAXPAGES_PROGRAM-}" ] && has nm 'symbols are not looked at'; then
        claim 'only the calls of the header are visible' only_calls_are_visible
        claim 'only malloc and its like, and copies of memory, are called' nothing_else_is_called
    fi
}
