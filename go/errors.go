package faxpages

// #include <faxpages.h>
import "C"

import (
	"errors"
	"fmt"
)

// What is wrong with a call, and not with a file.
var (
	ErrOutside  = errors.New("faxpages: there is no such page or row")
	ErrMemory   = errors.New("faxpages: there is not enough memory")
	ErrOptions  = errors.New("faxpages: the options or the form are out of range, or a raster is too short")
	ErrTooLarge = errors.New("faxpages: the file would have more than 268,435,456 bytes")
)

// Fault is a fault of a file or a strip, with the page and the row that was due there.
type Fault struct {
	Number    FaultNumber
	Tag       uint32 // the field at fault, or 0
	Page, Row int
}

// FaultNumber says which fault it is. Its String is the name, as EndMarker, or "fault 99" of one that has none.
type FaultNumber uint32

// The faults, with what each means.
const (
	// The file has fewer than eight bytes.
	ShortHeader FaultNumber = C.FAXPAGES_SHORT_HEADER
	// It begins with neither II nor MM: not a TIFF file.
	ByteOrder FaultNumber = C.FAXPAGES_BYTE_ORDER
	// The number after the byte order is not 42: not a TIFF file, or BigTIFF.
	Magic FaultNumber = C.FAXPAGES_MAGIC
	// The header names no page.
	NoDirectory FaultNumber = C.FAXPAGES_NO_DIRECTORY
	// A page's directory lies outside the file: usually the end of the file is missing.
	DirectoryOutside FaultNumber = C.FAXPAGES_DIRECTORY_OUTSIDE
	// A directory is followed by itself or an earlier one. All pages come before the fault.
	DirectoryLoop FaultNumber = C.FAXPAGES_DIRECTORY_LOOP
	// The field with this tag is missing.
	MissingField FaultNumber = C.FAXPAGES_MISSING_FIELD
	// The field is neither SHORT nor LONG, has too few values in the file, or is a RowsPerStrip of 0.
	BadField FaultNumber = C.FAXPAGES_BAD_FIELD
	// A field has a value that no fax page has.
	Unsupported FaultNumber = C.FAXPAGES_UNSUPPORTED
	// The page is empty, wider than 65,535 pels or longer than 1,000,000 rows.
	OutOfLimits FaultNumber = C.FAXPAGES_OUT_OF_LIMITS
	// A strip lies outside the file: usually the end of the file is missing.
	StripOutside FaultNumber = C.FAXPAGES_STRIP_OUTSIDE
	// A strip ends before its rows do: the sender was cut off, or the page is shorter than it says.
	DataEnds FaultNumber = C.FAXPAGES_DATA_ENDS
	// The next bits are neither a code nor the beginning of one.
	BadCode FaultNumber = C.FAXPAGES_BAD_CODE
	// An extension of T.4 or T.6, such as uncompressed mode, which is not read.
	Extension FaultNumber = C.FAXPAGES_EXTENSION
	// A run passes the width of the page.
	RunTooLong FaultNumber = C.FAXPAGES_RUN_TOO_LONG
	// A vertical mode leads out of the row, or back.
	OutOfRow FaultNumber = C.FAXPAGES_OUT_OF_ROW
	// No EOL stands before the row, in MH or MR.
	MissingEOL FaultNumber = C.FAXPAGES_MISSING_EOL
	// Eleven zeros, as in an end mark, stand in place of a row: the page may be shorter than it says.
	EndMarker FaultNumber = C.FAXPAGES_END_MARKER
	// A strip of unknown height has more than 1,000,000 rows.
	TooManyRows FaultNumber = C.FAXPAGES_TOO_MANY_ROWS
	// The image does not begin as raw PBM does (P4, width, height).
	PBMBadHeader FaultNumber = C.FAXPAGES_PBM_BAD_HEADER
	// It is empty, wider than 65,535 pels or longer than 1,000,000 rows.
	PBMOutOfLimits FaultNumber = C.FAXPAGES_PBM_OUT_OF_LIMITS
	// Its rows are not all there.
	PBMShortRaster FaultNumber = C.FAXPAGES_PBM_SHORT_RASTER
	// The input is neither raw PBM nor TIFF.
	UnknownInput FaultNumber = C.FAXPAGES_UNKNOWN_INPUT
	// The output would have more than 268,435,456 bytes, or a TIFF file more than 65,535 pages.
	OutputTooLarge FaultNumber = C.FAXPAGES_OUTPUT_TOO_LARGE
)

func (n FaultNumber) String() string {
	var name [nameRoom]C.uint8_t
	return nameOf(name, C.faxpages_fault_name(C.uint32_t(n), &name[0], nameRoom), "fault", uint32(n))
}

// Room for a name, also of a later library.
const nameRoom = 64

// The name that the library wrote, of so many letters; or what has it, and its number, where a later library has none.
func nameOf(name [nameRoom]C.uint8_t, count C.size_t, what string, number uint32) string {
	if count == 0 || count > nameRoom {
		return fmt.Sprintf("%s %d", what, number)
	}
	text := make([]byte, count)
	for i := range text {
		text[i] = byte(name[i])
	}
	return string(text)
}

func (f *Fault) Error() string {
	if f.Tag != 0 {
		return fmt.Sprintf("page %d row %d: %v of field %d", f.Page, f.Row, f.Number, f.Tag)
	}
	return fmt.Sprintf("page %d row %d: %v", f.Page, f.Row, f.Number)
}

func faultOf(it *C.struct_faxpages_fault) *Fault {
	if it.number == 0 {
		return nil
	}
	return &Fault{FaultNumber(it.number), uint32(it.tag), int(it.page), int(it.row)}
}

// The error of a status; none where all is well.
func errorOf(status C.uint32_t, fault *C.struct_faxpages_fault) error {
	switch status {
	case C.FAXPAGES_DONE, C.FAXPAGES_END, C.FAXPAGES_DATA_END:
		return nil
	case C.FAXPAGES_FAULT:
		if it := faultOf(fault); it != nil {
			return it
		}
	case C.FAXPAGES_OUTSIDE:
		return ErrOutside
	case C.FAXPAGES_MEMORY:
		return ErrMemory
	case C.FAXPAGES_NO_OPTIONS:
		return ErrOptions
	case C.FAXPAGES_TOO_LARGE:
		return ErrTooLarge
	}
	var name [nameRoom]C.uint8_t
	count := C.faxpages_status_name(status, &name[0], nameRoom)
	return fmt.Errorf("faxpages: %s", nameOf(name, count, "status", uint32(status)))
}
