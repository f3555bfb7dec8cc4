package register_test

import (
	"errors"
	"fmt"
	"image"
	"os"

	faxpages "ironminnow.example/faxpages/go"
	_ "ironminnow.example/faxpages/go/register"
)

func Example() {
	for _, name := range []string{"three-mmr-rows", "second-row-missing"} {
		file, _ := os.Open("../../samples/" + name + ".tif")
		config, format, _ := image.DecodeConfig(file)
		_, _ = file.Seek(0, 0)
		page, _, err := image.Decode(file)
		var fault *faxpages.Fault
		fmt.Println(format, config.Width, config.Height, page != nil, err, errors.As(err, &fault))
		_ = file.Close()
	}
	// Output:
	// fax 8 3 true <nil> false
	// fax 8 2 false page 0 row 1: DataEnds true
}
