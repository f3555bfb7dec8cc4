# shellcheck shell=sh
# For faxpages-mail and faxpages-hylafax: what a mail says of a fax, and what it has of one with a fault.

# Lines of a fault, a note or what is lost, with pages, strips and rows numbered from 1, as people count.
from_one() {
    awk '
        $1 == "fault" || $1 == "note" || $1 == "page" {
            for (i = 1; i < NF; i++)
                if ($i ~ /^(page|strip|rows?|to)$/ && $(i + 1) ~ /^[0-9]+:?$/)
                    $(i + 1) = ($(i + 1) + 1) ($(i + 1) ~ /:$/ ? ":" : "")
            if ($3 == "rows" && $4 ":" == $6) $0 = $1 " " $2 " row " $6 " " $7
        }
        { print }' "$@"
}

# What a person wants to know of a fax, in a line, by what `faxpages salvage` prints, and then lost.txt. A fault where a
# page after the last one begins says that more pages may have come.
sum_up() {
    awk '
        function grouped(n) { return n < 1000 ? n "" : grouped(int(n / 1000)) sprintf(",%03d", n % 1000) }
        function some(n, word) { return grouped(n) " " word (n == 1 ? "" : "s") }
        function missing(   what) {
            if (pages_gone) what = some(pages_gone, "page")
            if (gone) what = what (what == "" ? "" : " and ") grouped(gone) " of " some(found + gone, "row")
            if (cut) what = what (what == "" ? "" : ", and ") "what follows"
            return what (what == "" ? "" : pages_gone + gone > 1 ? " are missing" : " is missing")
        }
        NR != FNR { if ($2 ~ /:$/ && $2 + 0 >= pages) cut = 1; next }
        $1 == "end" { next }
        $2 >= pages { pages = $2 + 1 }
        $1 == "row" { found++; next }
        $3 ~ /^[0-9]+$/ { gone += $4; next }
        { pages_gone++ }
        END {
            printf "Fax of %s%s: ", some(pages + 0, "page"), cut ? " or more" : ""
            what = missing()
            if (!found) print "nothing of it can be read"
            else if (what == "") print "whole, " some(found, "row")
            else print (10 * gone > found + gone || 10 * pages_gone > pages ? "" : "readable, ") what
        }' "$@"
}

# Salvages a fax with a fault into the new folder FOLDER: the files of faxpages-salvage, or if it fails pages.tif alone.
# Sets `sum` to what a mail says first. The file TEXT gets what is missing, or why it failed; beside it other files are
# made. The seconds of the caller count.
#   salvage_to_mail FAX FOLDER TEXT
# shellcheck disable=SC2034 # The caller uses the sum.
salvage_to_mail() {
    sum='Fax, damaged: what is left of it cannot be shown'
    missing faxpages-salvage >>"$3" || with_rest faxpages-salvage "$1" "$2" >/dev/null 2>>"$3"
    if [ ! -d "$2" ]; then
        ! spend "${3%/*}" || salvage_as_tiff "$@"
        return
    fi
    sum=$(bounded faxpages salvage <"$1" 2>"$3.said" | sum_up - "$2/lost.txt")
    { printf 'Missing, with pages and rows numbered from 1:\n' && from_one "$2/lost.txt" &&
        printf '\n%s\n%s\n' 'The row above those that are missing may be wrong too, and damage that makes other codes' \
            'is not seen by any reader. Ask for the fax again where a row matters.'; } >>"$3"
}

# The TIFF file alone, for which no other program is needed.
# shellcheck disable=SC2034
salvage_as_tiff() {
    mkdir -- "$2" || return
    bounded faxpages salvage -o mmr <"$1" >"$2/pages.tif" 2>"$3.said"
    if [ $? -le 1 ] && [ -s "$2/pages.tif" ]; then
        sum='Fax, damaged: salvaged, missing rows are white'
    else
        rm -f -- "$2/pages.tif"
    fi
}
