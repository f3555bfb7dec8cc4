package faxpages

// #include <faxpages.h>
import "C"

// NoteKind says what may trouble other readers of a file. Its String is its name, or "note 99" of one that has none.
type NoteKind uint32

func (k NoteKind) String() string {
	var name [nameRoom]C.uint8_t
	return nameOf(name, C.faxpages_note_name(C.uint32_t(k), &name[0], nameRoom), "note", uint32(k))
}

// Note is a note on a page, or on a strip of it; Strip is -1 where it is on the page's directory.
type Note struct {
	Page, Strip int
	Kind        NoteKind
}

// Report is what was found in a file up to its first fault.
type Report struct {
	Pages, Rows int
	Notes       []Note
	Fault       *Fault // none where the file is sound
}

// Check reads all rows up to the first fault, which the report has.
func (f Fax) Check() (Report, error) {
	file, length := bytesOf(f.file)
	for room := 64; ; {
		var report C.struct_faxpages_report
		notes := make([]C.struct_faxpages_note, room)
		status := C.faxpages_check(file, length, &notes[0], C.size_t(room), &report)
		if status != C.FAXPAGES_END && status != C.FAXPAGES_FAULT {
			return Report{}, errorOf(status, &report.fault)
		}
		if int(report.notes) > room {
			room = int(report.notes)
			continue
		}
		made := Report{Pages: int(report.pages), Rows: int(report.rows), Fault: faultOf(&report.fault)}
		for _, it := range notes[:report.notes] {
			note := Note{int(it.page), int(it.strip), NoteKind(it.kind)}
			if it.strip == C.FAXPAGES_NO_STRIP {
				note.Strip = -1
			}
			made.Notes = append(made.Notes, note)
		}
		return made, nil
	}
}

// Target says what a file is converted to.
type Target uint32

// The targets: raw PBM, and TIFF-F in each coding.
const (
	ToPBM Target = iota
	ToMH
	ToMR
	ToMMR
)

// Options say how a file is written. Those that are 0 are the usual ones: the highest bit first, in MR one row in four
// coded by itself, a page one strip.
type Options struct {
	Target  Target
	Order   FillOrder
	K       int // in MR, a row in this many is coded by itself
	Strip   int // the rows of a strip
	Aligned bool
}

// The options as the library takes them; none where a number is below 0.
func (o Options) given() (C.struct_faxpages_options, error) {
	given := C.struct_faxpages_options{target: C.uint32_t(o.Target), order: C.uint32_t(o.Order),
		k: C.uint32_t(o.K), strip: C.uint32_t(o.Strip)}
	if o.Order == 0 {
		given.order = C.uint32_t(MSBFirst)
	}
	if o.K == 0 {
		given.k = 4
	}
	if o.Aligned {
		given.aligned = 1
	}
	if o.K < 0 || o.Strip < 0 {
		return given, ErrOptions
	}
	return given, nil
}

// Convert turns a TIFF-F file or raw PBM images into another file.
func Convert(file []byte, options Options) ([]byte, error) {
	given, err := options.given()
	if err != nil {
		return nil, err
	}
	bytes, length := bytesOf(file)
	made, status, fault := written(len(file), func(out *C.uint8_t, room C.size_t, converted *converted) C.uint32_t {
		return C.faxpages_convert(bytes, length, &given, out, room, converted)
	})
	if err := errorOf(status, &fault); err != nil {
		return nil, err
	}
	return made, nil
}

// SalvagedFile writes a damaged file as a new one: the rows that are found, and white ones in place of lost rows, which
// TIFF-F counts in the fields 326 to 328. Pages without a form are left out; if none has one the bytes are nil.
func (f Fax) SalvagedFile(options Options) ([]byte, error) {
	given, err := options.given()
	if err != nil {
		return nil, err
	}
	bytes, length := bytesOf(f.file)
	made, status, fault := written(len(f.file), func(out *C.uint8_t, room C.size_t, converted *converted) C.uint32_t {
		return C.faxpages_salvage_convert(bytes, length, &given, out, room, converted)
	})
	if status != C.FAXPAGES_DONE {
		return nil, errorOf(status, &fault)
	}
	return made, nil
}

type converted = C.struct_faxpages_converted

// The bytes that a call writes where it is given room for them, its status and its fault; size is that of its input.
func written(size int, write func(*C.uint8_t, C.size_t, *converted) C.uint32_t) (
	[]byte, C.uint32_t, C.struct_faxpages_fault) {
	for room := size + 1024; ; {
		var told converted
		out := make([]byte, room)
		status := write((*C.uint8_t)(&out[0]), C.size_t(room), &told)
		if status != C.FAXPAGES_NO_ROOM {
			return out[:told.len], status, told.fault
		}
		room = int(told.len)
	}
}
