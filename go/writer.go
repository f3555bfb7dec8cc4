package faxpages

// #include <faxpages.h>
import "C"

import "io"

// NewForm is the form of a page of this size in a coding: one strip, the highest bit first, at 204 by 196 an inch.
func NewForm(width, rows int, coding Coding) Form {
	return Form{Width: width, Rows: rows, Coding: coding, Order: MSBFirst, RowsPerStrip: rows, Strips: 1, X: Ratio{204, 1},
		Y: Ratio{196, 1}, Unit: 2}
}

// Sheet is what a Writer takes: a *Page, or a *Salvaged, whose lost rows are white.
type Sheet interface {
	sheet() (Form, *Raster)
}

func (p *Page) sheet() (Form, *Raster)     { return p.Form, &p.Raster }
func (s *Salvaged) sheet() (Form, *Raster) { return s.Form, &s.Raster }

// Writer writes a TIFF-F file page by page. NewWriter makes one.
type Writer struct {
	K       int // in MR one row in so many is coded by itself: 4 where it is 0
	to      io.Writer
	file    []byte
	written C.struct_faxpages_written
}

// NewWriter is a writer of a TIFF-F file to w. It writes nothing before Close.
func NewWriter(w io.Writer) *Writer { return &Writer{to: w, file: make([]byte, 65536)} }

// Add adds a page in the coding, the order, the strips and the resolution of its form.
func (w *Writer) Add(page Sheet) error {
	form, raster := page.sheet()
	k := w.K
	if k == 0 {
		k = 4
	}
	var err error
	w.file, err = addPage(w.file, &w.written, form, raster, k)
	return err
}

// Close writes the file, whose pages say how many there are. A file has at least one.
func (w *Writer) Close() error {
	status := C.faxpages_end_pages((*C.uint8_t)(&w.file[0]), C.size_t(len(w.file)), &w.written)
	if err := errorOf(status, &C.struct_faxpages_fault{}); err != nil {
		return err
	}
	_, err := w.to.Write(w.file[:w.written.len])
	return err
}

// Adds a page to a file that is written so far, which is another one where it had no room.
func addPage(file []byte, written *C.struct_faxpages_written, form Form, raster *Raster, k int) ([]byte, error) {
	given := form.written(raster.Rows)
	packed, length := bytesOf(raster.Packed)
	for {
		status := C.faxpages_add_page(&given, C.uint32_t(k), packed, length, C.size_t(raster.Stride()),
			(*C.uint8_t)(&file[0]), C.size_t(len(file)), written)
		if status != C.FAXPAGES_NO_ROOM {
			return file, errorOf(status, &C.struct_faxpages_fault{})
		}
		file = append(file, make([]byte, len(file))...)
	}
}
