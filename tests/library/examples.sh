# The examples in C, and those of the manual page and the header. tests/library/run has the library, the program and the files.
# shellcheck shell=bash disable=SC2154

# The example in C says of each sample whether it is whole, as the program does.
received_is_right() {
    local file
    for file in samples/*.tif; do
        "$program" check "$file" >/dev/null 2>&1
        [ $? = "$("$room/received" "$file" >/dev/null 2>&1; echo $?)" ] || return
    done
}

# The example in C of pages counts the black pels of each page that is read wholly, as the program's rows have them.
coverage_is_right() {
    local file
    for file in "${files[@]}"; do
        "$program" rows "$file" 2>/dev/null >"$room/rows-text"
        "$program" list "$file" 2>/dev/null | awk 'NR == FNR && $1 == "row" { rows[$2]++
                for (i = 4; i <= NF; i++) { pels[$2] += $i; if (i % 2) black[$2] += $i } }
            NR != FNR && $1 == "page" && rows[$2] == $4 {
                printf "page %d: %d of %d pels\n", $2, black[$2], pels[$2] }' "$room/rows-text" - >"$room/wanted"
        "$room/coverage" "$file" 2>"$room/missing" | diff "$room/wanted" - || return
        if "$program" rows "$file" >/dev/null 2>"$room/fault"; then
            [ ! -s "$room/missing" ] || return
        else
            sed 's/^fault //' "$room/fault" | diff - "$room/missing" || return
        fi
    done
}

# The example in C of a receiver writes the page that is sent in small pieces, and says which rows are missing, with
# status 1: received_as_sent DAMAGED, as sent.py has it.
received_as_sent() {
    local seed
    for seed in 1 2 3; do
        python3 tests/library/sent.py "$seed" "$1" 2>"$room/wanted" >"$room/sent" || return
        rm -f -- "$room/received.tif"
        dd bs=37 <"$room/sent" 2>/dev/null | "$room/receive" "$room/received.tif" 2>"$room/missing"
        [ "${PIPESTATUS[1]}" = "$(($1 > 0))" ] || return
        "$program" rows "$room/received.tif" | diff "$room/wanted" - || return
        diff "$room/missing" - < <(case $1 in
            1) printf 'page 0 row 17 cannot be read, and 2 after it\n3 of 60 rows are missing\n' ;;
            2) printf 'page 0 row 17 cannot be read, and 3 after it\n4 of 61 rows are missing\n' ;;
            esac) || return
    done
}

# Pages that come one after another become one file, the one that the program converts it to; of a damaged one the others
# are all there, and fill between them takes no room: receives_pages DAMAGED, of the first page.
receives_pages() {
    local page
    for page in 0 1 2; do
        python3 tests/library/sent.py "$page" $((page ? 0 : $1)) 2>"$room/rows-sent" || return
        sed "\$d; s/^row 0/row $page/" "$room/rows-sent" >&3
        head -c "$(($1 * 3000000))" /dev/zero
    done 3>"$room/wanted" >"$room/sent"
    rm -f -- "$room/received.tif"
    dd bs=3700 <"$room/sent" 2>/dev/null | "$room/receive" "$room/received.tif" 2>"$room/missing"
    [ "${PIPESTATUS[1]}" = "$(($1 > 0))" ] && [ "$(wc -l <"$room/missing")" = "$(($1 ? 2 : 0))" ] || return
    "$program" rows "$room/received.tif" | diff <(cat "$room/wanted"; echo end) - &&
        "$program" convert -o mmr "$room/received.tif" | cmp - "$room/received.tif"
}

# Where the line drops the example says so, with status 1, and writes the rows that came; fill that does not end takes
# no time.
receiver_says_what_is_missing() {
    local bytes status rows
    python3 tests/library/sent.py 1 0 2>"$room/wanted" >"$room/sent" || return
    for bytes in 0 1 200 1000 1700; do
        rm -f -- "$room/cut.tif"
        head -c "$bytes" "$room/sent" | "$room/receive" "$room/cut.tif" 2>"$room/missing"
        status=${PIPESTATUS[1]}
        rows=$(sed -n 's/^the data end after \([0-9]*\) rows, without a return to control: .*/\1/p' "$room/missing")
        [ "$status" = 1 ] || return
        if [ -z "$rows" ]; then
            [ "$bytes" -lt 1000 ] && [ "$(cat "$room/missing")" = 'no page is written' ] || return
        else
            "$program" rows "$room/cut.tif" | diff <(head -n "$rows" "$room/wanted"; echo end) - || return
        fi
    done
    [ "$("$room/receive" /nowhere/fax.tif <"$room/sent" 2>&1)" = '/nowhere/fax.tif: No such file or directory
no page is written' ] || return
    printf 'of somebody else' >"$room/there.tif"
    ! "$room/receive" "$room/there.tif" <"$room/sent" 2>/dev/null && [ "$(cat "$room/there.tif")" = 'of somebody else' ] || return
    head -c 3000000 /dev/zero | timeout 900 "$room/receive" "$room/cut.tif" 2>/dev/null
    [ "${PIPESTATUS[1]}" = 1 ]
}

# Three pages are sent, and each call for memory is refused in turn: the example writes what it writes else, or says that
# there is no memory, with status 1, and writes the pages that it had.
receiver_says_that_memory_was_refused() {
    local from page status said=0
    gcc -O1 -shared -fPIC -o "$room/refuse.so" tests/refused/refuse.c || return
    for page in 0 1 2; do
        python3 tests/library/sent.py "$page" 0 2>"$room/rows-sent" || return
        sed "\$d; s/^row 0/row $page/" "$room/rows-sent" >&3
    done 3>"$room/wanted" >"$room/sent"
    rm -f -- "$room/received.tif"
    "$room/receive" "$room/received.tif" <"$room/sent" && mv -- "$room/received.tif" "$room/whole.tif" || return
    for ((from = 1; from < 1000; from++)); do
        rm -f -- "$room/received.tif"
        REFUSE_KIND=words REFUSE_HOW=fail REFUSE_FROM=$from REFUSE_MARK=9 LD_PRELOAD=$room/refuse.so \
            "$room/receive" "$room/received.tif" <"$room/sent" 2>"$room/missing" 9>"$room/mark"
        status=$?
        [ -s "$room/mark" ] || break
        printf 'call %s, status %s: %s\n' "$from" "$status" "$(cat "$room/missing")"
        if [ "$status" = 0 ]; then
            [ ! -s "$room/missing" ] && cmp "$room/received.tif" "$room/whole.tif" || return
            continue
        fi
        [ "$status" = 1 ] && grep -q memory "$room/missing" && said=$((said + 1)) || return
        [ -e "$room/received.tif" ] || continue
        "$program" rows "$room/received.tif" >"$room/got" || return
        sed -i '$d' "$room/got" && cmp "$room/got" <(head -n "$(wc -l <"$room/got")" "$room/wanted") || return
    done
    [ "$from" -lt 1000 ] && [ "$said" -gt 10 ]
}

# The example in C of PDFs writes the first page of a sample as data, and these as a fax with the same rows.
ccitt_is_right() {
    local file columns
    for file in samples/three-mmr-rows.tif samples/one-mh-page.tif samples/row-begins-black.tif; do
        columns=$("$program" list "$file" | awk 'NR == 1 { print $3 }')
        rm -f -- "$room/back.tif"
        "$room/ccitt" out "$file" 0 >"$room/data" && "$room/ccitt" in "$columns" "$room/back.tif" <"$room/data" || return
        says 1 "$room/back.tif: File exists
no page is written" "$room/ccitt" in "$columns" "$room/back.tif" <"$room/data" || return
        "$program" rows "$room/back.tif" | sed '$d' | diff <("$program" rows "$file" | grep '^row 0 ') - || return
        "$program" check "$room/back.tif" | grep -qx 'pages 1 rows [0-9]*' || return
    done
}

# It names what it cannot read or write, with status 1: pages, files, and data that end without their end mark. What can be
# read of data that are cut is written.
ccitt_says_what_is_missing() {
    local data=$room/data file=samples/damaged-fourth-page.tif bytes rows status
    says 1 "$file: Fault at row 5: OutOfRow" "$room/ccitt" out "$file" 3 &&
        says 1 'tests/runs/inputs/width-zero.tif: Fault at row 0: OutOfLimits 256' \
            "$room/ccitt" out tests/runs/inputs/width-zero.tif 0 &&
        says 1 "$file: End" "$room/ccitt" out "$file" 4 && says 1 "$file: Outside" "$room/ccitt" out "$file" 5 &&
        says 1 'nowhere.tif: No such file or directory' "$room/ccitt" out nowhere.tif 0 || return
    "$room/ccitt" out "$file" 0 >"$data" 2>"$room/form" || return
    says 1 "/nowhere/fax.tif: No such file or directory
no page is written" "$room/ccitt" in 32 /nowhere/fax.tif <"$data" || return
    for ((bytes = 1; bytes < $(wc -c <"$data"); bytes++)); do
        rm -f -- "$room/back.tif"
        head -c "$bytes" "$data" | "$room/ccitt" in 32 "$room/back.tif" 2>"$room/missing"
        status=${PIPESTATUS[1]}
        rows=$(sed -n 's/.*: \([0-9]*\) rows, and no end of the facsimile block: rows may be missing$/\1/p' "$room/missing")
        [ "$status" = 1 ] && [ "${rows:-none}" = "$(rows_of "$room/back.tif")" ] || return
    done
    [ "$bytes" -gt 20 ]
}

# How many rows a file of one page has.
rows_of() {
    if [ -e "$1" ]; then "$program" list "$1" | awk 'NR == 1 { print $4 }'; else echo none; fi
}

# What a command says on the error stream, and its status: says STATUS TEXT COMMAND..
says() {
    local said status
    said=$("${@:3}" 2>&1 >/dev/null)
    status=$?
    printf '%s %s\n' "$status" "$said"
    [ "$status" = "$1" ] && [ "$said" = "$2" ]
}

# A program around the lines of an example, with what they name.
around() {
    cat <<'END'
#include <faxpages.h>
#include <stdio.h>
#include <stdlib.h>
static void use_row(uint32_t page, uint32_t row, const uint8_t *bytes, uint32_t width) {
    printf("row %u %u %u %u\n", (unsigned)page, (unsigned)row, (unsigned)width, bytes[0]);
}
int main(int count, char **words) {
    uint8_t *file = malloc(1 << 20);
    FILE *in = fopen(words[count - 1], "rb");
    size_t len = in && file ? fread(file, 1, 1 << 20, in) : 0;
    if (in) fclose(in);
END
    cat
    printf '%s\n' '    free(file);' '    return status != FAXPAGES_END;' '}'
}

# An example of faxpages(3), by its number.
shown() {
    sed -n '/^\.SH EXAMPLES/,/^\.SH SEE/p' man/faxpages.3 |
        awk -v n="$1" '/^\.nf/ { count++; next } /^\.fi/ { count += 0.5; next } count == 1.5 * n - 0.5'
}

# The examples of faxpages(3) after the first, each as the body of a function, with what it names.
other_examples_are_compiled() {
    local number
    for number in 2 3 4 5 6; do
        cat <<'END'
#include <faxpages.h>
#include <stdlib.h>
enum { MOST_PAGES = 9, MOST_ROWS = 9, MOST_PELS = 9, MOST_BYTES = 9 };
size_t receive(uint8_t *to, size_t room);
int receive_page(struct faxpages_form *form, uint8_t *raster);
uint32_t call(uint8_t *file, size_t len, size_t file_room, uint8_t *data, size_t data_room, uint8_t *raster,
              size_t stride, size_t room, uint32_t rows);
uint32_t call(uint8_t *file, size_t len, size_t file_room, uint8_t *data, size_t data_room, uint8_t *raster,
              size_t stride, size_t room, uint32_t rows) {
    static uint32_t runs[FAXPAGES_RUNS];
    struct faxpages_told told;
    uint32_t status;
    (void)file, (void)len, (void)file_room, (void)data, (void)data_room, (void)raster, (void)stride, (void)room, (void)rows;
    (void)runs, (void)told;
    {
END
        # The status and the raster that an example declares are those of the function.
        shown "$number" | sed 's/^    uint32_t status = /    status = /; s/^    uint8_t \*raster = NULL, none/    uint8_t none/'
        printf '%s\n' '    }' '    return status;' '}'
    done | awk -v room="$room" '/^#include <faxpages.h>/ { name = room "/shown-" ++count ".c" } { print >name }' || return
    for number in 1 2 3 4 5; do
        [ "$(grep -c faxpages_ "$room/shown-$number.c")" -gt 2 ] || return
        gcc -std=c99 -Wall -Wextra -pedantic -Werror -Iinclude -c -o "$room/shown.o" "$room/shown-$number.c" || return
    done
}

# The example of faxpages(3) that receives, as a program whose line is standard input: it prints how many rows there are,
# and on the error stream how often it reads; it ends with status 0 where they end at the return to control.
receiver_of_the_manual() {
    cat <<'END'
#include <faxpages.h>
#include <stdio.h>
static size_t receive(uint8_t *to, size_t room) { return fread(to, 1, room < 100 ? room : 100, stdin); }
static uint8_t data[1 << 21], raster[1000 * 216];
static uint32_t runs[FAXPAGES_RUNS];
static unsigned reads;
#define faxpages_strip_part(...) (reads++, faxpages_strip_part(__VA_ARGS__))
int main(void) {
    const size_t data_room = sizeof data, stride = 216, room = sizeof raster;
    size_t len = 0;
    struct faxpages_told told;
END
    shown 3
    printf '%s\n' '    printf("%u\n", (unsigned)place.row);' '    fprintf(stderr, "%u\n", reads);' \
        '    return status != FAXPAGES_END;' '}'
}

# It ends wherever the line drops, and then never as a whole page.
loop_of_the_manual_ends() {
    local bytes
    python3 tests/library/sent.py 1 0 2>"$room/wanted" >"$room/sent" && receiver_of_the_manual >"$room/loop.c" &&
        compile "$room/loop" "$room/loop.c" || return
    [ "$("$room/loop" <"$room/sent" 2>"$room/reads")" = $(($(wc -l <"$room/wanted") - 1)) ] || return
    [ "$(cat "$room/reads")" -ge $(($(wc -c <"$room/sent") / 100)) ] || return
    for bytes in 0 1 99 100 101 1000 1700; do
        ! head -c "$bytes" "$room/sent" | timeout 900 "$room/loop" >"$room/rows-read" 2>/dev/null || return
        [ "$(cat "$room/rows-read")" -lt $(($(wc -l <"$room/wanted") - 1)) ] || return
    done
}

# A row of which much comes is not read again for each piece, of fill and of runs of no pels; after fill a page is whole.
loop_of_the_manual_is_not_quadratic() {
    { head -c 800000 /dev/zero && cat "$room/sent"; } | "$room/loop" >"$room/rows-read" 2>"$room/reads" &&
        [ "$(cat "$room/rows-read")" = $(($(wc -l <"$room/wanted") - 1)) ] && [ "$(cat "$room/reads")" -lt 300 ] || return
    # An EOL, and then no white pel and no black one, four times in nine bytes, the lowest bit first.
    python3 -c 'import sys
sys.stdout.buffer.write(bytes([0, 0x18]) + bytes([0xAC, 0xB0, 0xB3, 0xC2, 0xCE, 0x0A, 0x3B, 0x2B, 0xEC]) * 90000)' >"$room/endless"
    ! "$room/loop" <"$room/endless" >/dev/null 2>"$room/reads" && [ "$(cat "$room/reads")" -lt 300 ]
}

# The first example of faxpages(3), and the line of the README put in the place of its call, print the rows of a sample.
examples_print_rows() {
    local file=samples/three-mmr-rows.tif call example=$room/example.c
    shown 1 >"$room/shown"
    around <"$room/shown" >"$example"
    compile "$room/example" "$example" && "$room/example" "$file" >"$room/got" || return
    [ "$(grep -c '^row' "$room/got")" = "$("$program" rows "$file" | grep -c '^row')" ] || return
    call=$(sed -n 's/^C  *//p' README.md)
    awk -v call="$call" '/status = / { print call; skip = 1 } !skip { print } /&told);/ { skip = 0 }' "$room/shown" |
        around >"$example"
    grep -qF "$call" "$example" && compile "$room/example" "$example" && "$room/example" "$file" | diff "$room/got" -
}

# By the reader a file has the rows, the end or the fault that the program prints, and its status, as packed bytes, runs
# and changing elements; and salvaged what `salvage` prints: reader_reads FILE.
reader_reads() {
    local got wanted how
    "$program" rows "$1" >"$room/all" 2>"$room/wanted.error"
    wanted=$?
    grep -v '^next ' "$room/all" >"$room/wanted"
    for how in packed runs changes; do
        "$room/handle" "$how" "$1" >"$room/got" 2>"$room/got.error"
        got=$?
        cmp "$room/got" "$room/wanted" && cmp "$room/got.error" "$room/wanted.error" && [ "$got" = "$wanted" ] || return
    done
    "$program" salvage "$1" >"$room/wanted" 2>/dev/null
    "$room/handle" salvaged "$1" >"$room/got"
    # The program prints no line where the chain of pages breaks off.
    grep -vE '^lost page [0-9]+ row 0: (ShortHeader|ByteOrder|Magic|NoDirectory|DirectoryOutside|DirectoryLoop)$' "$room/got" |
        sed 's/^lost page \([0-9]*\) row 0: /lost \1 /' | cmp - "$room/wanted"
}

# The last file has more rows, and more bytes of rows, than are read a call.
reader_reads_as_the_program() {
    local file
    { printf 'P4\n1728 9000\n' && seq 1 400000 | head -c 1944000; } >"$room/many.pbm" &&
        "$program" convert -o mmr "$room/many.pbm" >"$room/many.tif" || return
    for file in "${files[@]}" "$room/many.tif"; do
        reader_reads "$file" || { printf '%s\n' "$file" && return 1; }
    done
    [ "$(grep -c ^row "$room/got")" = 9000 ] && ! "$room/handle" packed - >"$room/got" 2>&1 &&
        printf 'fault page 0 row 0: ShortHeader\n' | cmp - "$room/got"
}

# The lines at the head of faxpages_reader.h, as a program, in C and in C++.
reader_says_fault() {
    local lines
    lines=$(sed -n 's/^ \*     //p' include/faxpages_reader.h)
    [ "$(wc -l <<<"$lines")" -gt 3 ] && [ "$(wc -l <<<"$lines")" -lt 10 ] &&
        printf '%s\n' '#include <faxpages_reader.h>' 'static unsigned char file[1 << 20];' 'int main(void) {' \
            '    size_t len = fread(file, 1, sizeof file, stdin);' "$lines" '    return 0;' '}' >"$room/lines.c" &&
        { ! command -v g++ >/dev/null ||
            g++ -std=c++11 -Wall -Wextra -pedantic -Werror -Iinclude -c -o "$room/lines.o" -x c++ "$room/lines.c"; } &&
        compile "$room/by-lines" "$room/lines.c" "$folder/libfaxpages.a" &&
        "$room/by-lines" <samples/damaged-fourth-page.tif >"$room/got" || return
    [ "$(grep -c '^row' "$room/got")" = "$("$program" rows samples/damaged-fourth-page.tif 2>/dev/null | grep -c '^row')" ] &&
        [ "$(tail -n 1 "$room/got")" = 'fault page 3 row 5: OutOfRow' ]
}
