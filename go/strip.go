package faxpages

// #include <faxpages.h>
import "C"

// StripForm is the form of T.4 or T.6 data with no file around them.
type StripForm struct {
	Width  int
	Rows   int // 0 if the height is unknown
	Coding Coding
	Order  FillOrder // 0 is the highest bit first
}

func (f StripForm) given() C.struct_faxpages_strip {
	order := f.Order
	if order == 0 {
		order = MSBFirst
	}
	return C.struct_faxpages_strip{width: C.uint32_t(f.Width), rows: C.uint32_t(f.Rows), coding: C.uint32_t(f.Coding),
		order: C.uint32_t(order)}
}

func (f StripForm) isValid() bool {
	return f.Width >= 1 && f.Width <= 65535 && f.Rows >= 0 && f.Rows <= 1000000 && f.Coding >= MH && f.Coding <= MMR
}

// Strip is the rows of a strip, whose page is 0, up to the last, to its end mark or to the end of the data.
func Strip(data []byte, form StripForm) Seq[Row] {
	return func(yield func(Row, error) bool) {
		if !form.isValid() {
			yield(Row{}, ErrOptions)
			return
		}
		given, stride := form.given(), (form.Width+7)/8
		bytes, length := bytesOf(data)
		out, runs := make([]byte, stride*(1+numbersAtOnce/stride)), make([]C.uint32_t, C.FAXPAGES_RUNS)
		var at C.struct_faxpages_place
		for {
			var told C.struct_faxpages_told
			first := int(at.row)
			status := C.faxpages_strip_rows(bytes, length, &given, &at, &runs[0], C.size_t(len(runs)),
				(*C.uint8_t)(&out[0]), C.size_t(len(out)), C.size_t(stride), &told)
			for i := 0; i < int(told.count); i++ {
				packed := append([]byte(nil), out[i*stride:(i+1)*stride]...)
				if !yield(Row{0, first + i, form.Width, packed}, nil) {
					return
				}
			}
			if status == C.FAXPAGES_DONE && (form.Rows == 0 || int(at.row) < form.Rows) {
				continue
			}
			if err := errorOf(status, &told.fault); err != nil {
				yield(Row{}, err)
			}
			return
		}
	}
}

// SalvageStrip returns the readable rows of a damaged strip. Its form is that of NewForm.
func SalvageStrip(data []byte, form StripForm) (*Salvaged, error) {
	if !form.isValid() {
		return nil, ErrOptions
	}
	given := form.given()
	bytes, length := bytesOf(data)
	call := func(out *C.uint8_t, room, stride C.size_t, lost *C.struct_faxpages_lost, most C.size_t,
		told *C.struct_faxpages_told) C.uint32_t {
		return C.faxpages_salvage_strip(bytes, length, &given, out, room, stride, lost, most, told)
	}
	made, told, status := salvaged(form.Width, form.Rows, call)
	for rows := 1024; form.Rows == 0 && status == C.FAXPAGES_NO_ROOM; rows = int(told.row) {
		made, told, status = salvaged(form.Width, rows, call)
	}
	made.Form = NewForm(form.Width, made.Rows, form.Coding)
	if form.Rows == 0 && status == C.FAXPAGES_FAULT {
		made.End = FaultNumber(told.fault.number)
		return made, nil
	}
	return made, errorOf(status, &told.fault)
}

// Code codes the rows of a raster as a strip, in the codes that T.4 and T.6 choose. In MR one row in k is coded by itself.
func Code(raster *Raster, coding Coding, order FillOrder, k int) ([]byte, error) {
	form := StripForm{raster.Width, raster.Rows, coding, order}
	if !form.isValid() || raster.Rows < 1 || k < 1 {
		return nil, ErrOptions
	}
	given := form.given()
	packed, length := bytesOf(raster.Packed)
	for room := len(raster.Packed)/4 + 64; ; {
		var count C.size_t
		out := make([]byte, room)
		status := C.faxpages_strip_code(&given, C.uint32_t(k), packed, length, C.size_t(raster.Stride()),
			(*C.uint8_t)(&out[0]), C.size_t(room), &count)
		if status == C.FAXPAGES_NO_ROOM {
			room = int(count)
			continue
		}
		return out[:count], errorOf(status, &C.struct_faxpages_fault{})
	}
}

// Write makes a TIFF-F file of pages, each in the coding, the order, the strips and the resolution of its form; in MR
// one row in k is coded by itself.
func Write(pages []*Page, k int) ([]byte, error) {
	written := C.struct_faxpages_written{total: C.uint32_t(len(pages))}
	file := make([]byte, 65536)
	for _, page := range pages {
		var err error
		if file, err = addPage(file, &written, page.Form, &page.Raster, k); err != nil {
			return nil, err
		}
	}
	return file[:written.len], nil
}

func (f Form) written(rows int) C.struct_faxpages_form {
	strip := f.RowsPerStrip
	if strip < 1 || strip > rows {
		strip = rows
	}
	made := C.struct_faxpages_form{width: C.uint32_t(f.Width), rows: C.uint32_t(rows), coding: C.uint32_t(f.Coding),
		order: C.uint32_t(f.Order), rows_per_strip: C.uint32_t(strip), strips: 1,
		x_numerator: C.uint32_t(f.X.Numerator), x_denominator: C.uint32_t(f.X.Denominator),
		y_numerator: C.uint32_t(f.Y.Numerator), y_denominator: C.uint32_t(f.Y.Denominator), unit: C.uint32_t(f.Unit)}
	if strip > 0 {
		made.strips = C.uint32_t((rows + strip - 1) / strip)
	}
	if f.Aligned && f.Coding != MMR {
		made.aligned = 1
	}
	return made
}
