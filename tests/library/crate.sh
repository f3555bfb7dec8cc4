# The crate for Rust. tests/library/run has the library, the program and the files.
# shellcheck shell=bash disable=SC2154

# The crates of other people that the crate for Rust stands on and that Debian's registry lacks.
crates_that_lack() {
    local crate
    for crate in arrayvec-0.7 byteorder-1 itoa-1 thiserror-1; do
        compgen -G "/usr/share/cargo/registry/$crate.*" >/dev/null || printf '%s ' "$crate"
    done
}

# The crate for Rust and the plain crates that it stands on, as the archive of the sources has them, with Debian's crates
# of other people in place of a registry.
lay_out_crate() {
    local sources=$room/sources
    mkdir -p "$sources/.cargo" && cp -r rust "$sources/rust" && rm -rf "$sources"/rust/{target,Cargo.lock} &&
        tools/plain-rust "$sources/plain" &&
        printf '%s\n' '[source.crates-io]' 'replace-with = "debian"' '[source.debian]' \
            'directory = "/usr/share/cargo/registry"' >"$sources/.cargo/config.toml"
}

# cargo, over the crate for Rust, or over that of the calls, which links the library that is tried: with_crate COMMAND
# WORDS..; with_calls COMMAND WORDS..
with_crate() {
    (
        unset RUST_BACKTRACE
        cd "$room/sources/${crate:-rust}" && FAXPAGES_LIBRARY_FOLDER=$folder CARGO_TARGET_DIR=$room/cargo \
            CARGO_PROFILE_DEV_OPT_LEVEL=1 cargo "$1" --offline --quiet "${@:2}"
    )
}

with_calls() {
    crate=rust/sys with_crate "$@"
}

# Compiles a caller of the crate: compile_with_crate OUT SOURCE.
compile_with_crate() {
    with_crate build || return
    rustc --edition 2021 -D warnings -L "dependency=$room/cargo/debug/deps" \
        --extern "faxpages=$room/cargo/debug/libfaxpages.rlib" -o "$1" "$2"
}

# The README's line in Rust prints the runs of each row.
readme_in_rust() {
    printf 'fn main() -> Result<(), faxpages::Error> {\n    let bytes = std::fs::read("%s").unwrap();\n    %s\n    Ok(())\n}\n' \
        samples/three-mmr-rows.tif "$(sed -n 's/^Rust  *//p' README.md)" >"$room/line.rs"
    compile_with_crate "$room/line" "$room/line.rs" && "$room/line" >"$room/got" || return
    "$program" rows samples/three-mmr-rows.tif | sed -n '/^row/{s/^row [0-9]* [0-9]* \(.*\)/[\1]/; s/ /, /g; p}' |
        diff - "$room/got"
}

# The crate's own tests and examples, and its pictures of pages, which are those of the program.
crate_is_right() {
    local file=$PWD/samples/three-mmr-rows.tif
    rm -f -- "$room/page-0.pbm"
    with_crate test && with_crate run --example pictures -- "$file" "$room" &&
        "$program" convert -o pbm "$file" | cmp - "$room/page-0.pbm"
}

# Clippy has nothing to say.
crate_is_tidy() {
    with_crate clippy --all-targets -- -D warnings
}

# The example of the crate that receives a page writes what was sent: a strip, which stands in a file after its header
# and before its directory.
receives_what_was_sent() {
    local file=samples/three-mmr-rows.tif end
    "$program" convert -o mr --order 2 "$file" >"$room/sent.tif" && end=$(od -An -tu4 -j4 -N4 "$room/sent.tif") || return
    head -c $((end)) "$room/sent.tif" | tail -c +9 >"$room/sent" &&
        rm -f -- "$room/received.tif" && with_crate run --example receive -- 8 "$room/received.tif" <"$room/sent" &&
        ! with_crate run --example receive -- 8 "$room/received.tif" <"$room/sent" 2>/dev/null &&
        "$program" rows "$room/received.tif" | diff - <("$program" rows "$file") || return
    # A line that drops is said, with status 1, and what came before is written.
    rm -f -- "$room/received.tif"
    ! head -c 5 "$room/sent" | with_crate run --example receive -- 8 "$room/received.tif" 2>"$room/missing" &&
        grep -qx '1 rows, then page 0 row 1: DataEnds' "$room/missing" && [ -s "$room/received.tif" ]
}

# Drawn strips, half of them damaged, by the crate: of some 3 in 10 the place to read from is the beginning.
crate_reads_drawn_strips() {
    python3 tests/library/drawn.py 2000 >"$room/lines" && "$room/drawn-strips" <"$room/lines" | tee "$room/tried" &&
        awk '{ exit !($1 > 400 && $3 == 2000 && $5 == 2000) }' "$room/tried"
}

# Each public item of the crate is documented, which is asked of the compiler, and has an example, which cargo runs. The
# documentation shows one crate.
crate_is_documented() {
    grep -qx '#!\[deny(missing_docs)\]' rust/src/lib.rs && RUSTDOCFLAGS='-D warnings' with_crate doc --no-deps &&
        [ "$(sed -n 's/.*ALL_CRATES = \[\(.*\)\].*/\1/p' "$room/cargo/doc/crates.js")" = '"faxpages"' ] &&
        python3 tests/library/exampled.py
}

# By itself the crate has no build script, links nothing, and has no unsafe code; and no example reads a file.
crate_stands_alone() {
    grep -qx '#!\[forbid(unsafe_code)\]' rust/src/lib.rs && [ ! -e rust/build.rs ] &&
        ! grep -qE '^(build|links) *=' rust/Cargo.toml && ! grep -nE '^ *//[/!].*fs::read\("\.' rust/src/*.rs
}

# Where no folder is named, the archive is looked for where ./install puts it, and where the package libfaxpages-dev
# has it.
crate_finds_the_archive() {
    local home=$room/home packed
    packed=/$(sed -n 's|.*mv -- "$usr"/lib/libfaxpages.a "$dev/\(.*\)/$triplet"$|usr/\1|p' package)/x86_64-linux-gnu
    rustc --edition 2021 -o "$room/build-script" rust/sys/build.rs && mkdir -p "$home/.local/lib" || return
    env -u FAXPAGES_LIBRARY_FOLDER HOME="$home" "$room/build-script" | tee "$room/searched"
    # Either it is installed for all here, or the folders that were looked in are named.
    grep -qxE "cargo:rustc-link-search=native=(/usr/local/lib|$packed)" "$room/searched" ||
        grep -q "^cargo:warning=.* $home/.local/lib, /usr/local/lib, $packed:.*FAXPAGES_LIBRARY_FOLDER" \
            "$room/searched" || return
    cp -- "$folder/libfaxpages.a" "$home/.local/lib" && env -u FAXPAGES_LIBRARY_FOLDER HOME="$home" "$room/build-script" |
        grep -qx "cargo:rustc-link-search=native=$home/.local/lib"
}

# The crate's cursors, runs and changing elements.
callers_of_crate() {
    local how
    claim "the caller of cursors in Rust is compiled" compile_with_crate "$room/cursors" tests/library/cursors.rs
    [ -x "$room/cursors" ] || return
    for how in rows runs changes pages numbers buffers batches stops; do
        over_all "Rust, the crate's $how" rows "$room/cursors" "$how"
    done
    claim "places of the crate are those of the program" places_are_the_programs "$room/cursors"
    claim "the caller that writes in Rust is compiled" compile_with_crate "$room/written" tests/library/written.rs
    claim "the crate writes pages, and codes and reads bare strips" "$room/written" "${files[@]}"
    claim "the crate receives a page" receives_what_was_sent
    claim "the caller of drawn strips in Rust is compiled" \
        compile_with_crate "$room/drawn-strips" tests/library/drawn.rs
    claim "2,000 drawn strips by the crate" crate_reads_drawn_strips
    claim "the caller of strips that nobody counted in Rust is compiled" \
        compile_with_crate "$room/alike" tests/library/alike.rs
    claim "1,500 drawn strips whose rows nobody counted by the crate" ends_are_plain "$room/alike"
    claim "the caller of what is left in Rust is compiled" compile_with_crate "$room/left-rust" tests/library/left.rs
    claim "what is left of drawn strips and files by the crate" left_is_plain "$room/left-rust"
    claim 'the short program in Rust is compiled' compile_with_crate "$room/left-in-rust" examples/left/left.rs
    claim 'the short program in Rust prints and copies what is left' tests/library/copies "$program" examples/left/left.rs \
        "$room/left-in-rust"
    claim "the caller of what receivers counted in Rust is compiled" \
        compile_with_crate "$room/received-rust" tests/library/received.rs
    claim "what the receivers of drawn pages counted by the crate" receivers_are_plain "$room/received-rust"
    # A page whose rows pass the room of a call.
    { printf 'P4\n2000 6000\n' && yes "$(printf '%248sx' '')" | tr ' ' '\0' | head -c 1500000; } |
        "$program" convert -o mmr >"$room/long.tif"
    for how in rows runs pages buffers batches; do
        claim "Rust, the crate's $how of a long page" same_as rows "$room/long.tif" "$room/cursors" "$how"
    done
    for file in samples/damaged-fourth-page.tif tests/runs/inputs/three-whole-pages.tif; do
        claim "what is out of range is refused in Rust: ${file##*/}" "$room/cursors" wrong "$file"
    done
    claim "the line of the README in Rust" readme_in_rust
}

# The crate of the calls declares those of the header, each with its parameters, and one of its examples prints what the
# program prints.
calls_in_rust() {
    claim 'the crate for Rust finds the archive' crate_finds_the_archive
    claim 'the calls for Rust are those of the header' calls_are_the_headers
    claim 'the calls for Rust are documented' with_calls doc --no-deps
    ! has cargo-clippy 'clippy does not look at the calls for Rust' ||
        claim 'clippy, the calls for Rust' with_calls clippy --all-targets -- -D warnings
    claim 'the caller of the calls for Rust is compiled' with_calls build --examples
    over_all 'Rust, the proved library itself' rows "$room/cargo/debug/examples/rows"
}

calls_are_the_headers() {
    diff <(grep -oE '\bfaxpages_[a-z_]+\(' include/faxpages.h | sort -u) \
        <(sed -n 's/^    fn \(faxpages_[a-z_]*(\).*/\1/p' rust/sys/src/lib.rs | sort)
}

crate_for_rust() {
    claim 'the crate for Rust stands alone' crate_stands_alone
    claim 'the crate for Rust is laid out' lay_out_crate
    claim 'the crate for Rust' crate_is_right
    claim 'the crate for Rust is documented' crate_is_documented
    ! has cargo-clippy 'clippy does not look at the crate for Rust' || claim 'clippy, the crate' crate_is_tidy
    callers_of_crate
}
