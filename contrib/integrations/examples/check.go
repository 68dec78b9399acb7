// Prints the verdict on each file.
package main

/*
#cgo pkg-config: dwv
#include <dwv.h>
*/
import "C"

import (
	"errors"
	"fmt"
	"os"
	"unsafe"
)

// Check returns how many entries a sound file has, or its fault.
func Check(file []byte) (uint64, error) {
	var v C.struct_dwv_verdict
	first := (*C.uint8_t)(unsafe.Pointer(&[1]byte{}))
	if len(file) > 0 {
		first = (*C.uint8_t)(unsafe.Pointer(&file[0]))
	}
	switch C.dwv_check(first, C.size_t(len(file)), &v) {
	case C.DWV_SOUND:
		return uint64(v.entries), nil
	case C.DWV_FAULT:
		rule, name, section := C.GoString(&v.rule[0]), C.GoString(&v.name[0]), C.GoString(&v.section[0])
		return 0, fmt.Errorf("%s %s at %s+0x%08x", rule, name, section, uint32(v.at))
	}
	return 0, errors.New("out of memory")
}

func main() {
	for _, name := range os.Args[1:] {
		file, err := os.ReadFile(name)
		if err != nil {
			panic(err)
		}
		if entries, err := Check(file); err != nil {
			fmt.Println(err)
		} else {
			fmt.Println("sound,", entries, "entries")
		}
	}
}
