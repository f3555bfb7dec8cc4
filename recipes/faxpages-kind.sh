# shellcheck shell=sh
# For faxpages-mail, faxpages-receive and faxpages-sweep: which files are no faxes that are read here. These have a fault
# by 'faxpages check', and need not be damaged.

# Numbers of a TIFF file from a place on: numbers FILE ORDER BYTES-EACH PLACE COUNT.
numbers() {
    od -A n -v -w12 -t "u$3" --endian="$2" -j "$4" -N "$5" "$1" 2>/dev/null
}

# Whether the first directory has the fields of tiles.
is_tiled() {
    case $(head -c 2 "$1" | tr -d '\0') in II) set -- "$1" little ;; MM) set -- "$1" big ;; *) return 1 ;; esac
    set -- "$@" $(($(numbers "$1" "$2" 4 4 4)))
    numbers "$1" "$2" 2 $(($3 + 2)) $((12 * $(numbers "$1" "$2" 2 "$3" 2))) |
        awk '$1 == 322 || $1 == 324 { found = 1 } END { exit !found }'
}

# What a file with a fault is, if it is no fax that is read here: other_kind FILE LAST-LINE-OF-CHECK.
other_kind() {
    case $2 in
    *': Unsupported '*) echo 'a picture of another kind' ;;
    *': Magic') echo 'a BigTIFF file, or none in TIFF' ;;
    *': ByteOrder') case $(head -c 5 "$1" | tr -d '\0') in %PDF-) echo 'a PDF' ;; *) echo 'no TIFF file' ;; esac ;;
    *': MissingField 273') is_tiled "$1" && echo 'a picture in tiles' ;;
    *) return 1 ;;
    esac
}
