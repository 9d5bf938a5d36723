// An output voltage from Go: its code, the packet error code of the packet that sets it, and what a
// capture of that packet says.
//
//	go run examples/go/voltage.go
package main

// #cgo CFLAGS: -I${SRCDIR}/../../include
// #cgo LDFLAGS: ${SRCDIR}/../../release/libpmb.a
// #include <stdlib.h>
// #include "pmb.h"
import "C"

import (
	"fmt"
	"unsafe"
)

// What `pmb show` writes of a capture. A text that is longer than the room is written again.
func show(profile, capture string) (string, error) {
	given, read := C.CString(profile), C.CString(capture)
	defer C.free(unsafe.Pointer(given))
	defer C.free(unsafe.Pointer(read))
	told := C.pmb_result{length: 4096, status: C.PMB_NO_ROOM}
	var out []byte
	for told.status == C.PMB_NO_ROOM {
		out = make([]byte, told.length)
		C.pmb_show(given, C.size_t(len(profile)), read, C.size_t(len(capture)),
			(*C.char)(unsafe.Pointer(&out[0])), C.size_t(len(out)), &told)
	}
	if told.status != C.PMB_OK {
		return "", fmt.Errorf("pmb_show: status %d", told.status)
	}
	return string(out[:told.length]), nil
}

func main() {
	format := C.pmb_format{kind: C.PMB_VOUT, mode: 0x17}
	wanted := C.pmb_quantity{numerator: 33, denominator: 10}
	var code C.uint16_t
	var value C.pmb_quantity
	if C.pmb_encode(&format, wanted, &code) != C.PMB_OK || C.pmb_decode(&format, code, &value) != C.PMB_OK {
		panic("3.3 V has no code")
	}
	fmt.Printf("3.3 V is %04x, which is %d/%d\n", code, value.numerator, value.denominator)

	packet := []C.uint8_t{0xb0, 0x21, C.uint8_t(code), C.uint8_t(code >> 8)}
	pec := C.pmb_pec(0, &packet[0], C.size_t(len(packet)))
	fmt.Printf("its packet error code is %02x\n", pec)

	profile := "[[device]]\naddress = 0x58\npec = 'on'\nvout_mode = 0x17"
	text, err := show(profile, fmt.Sprintf("S b0 A 21 A %02x A %02x A %02x A P", packet[2], packet[3], pec))
	if err != nil {
		panic(err)
	}
	fmt.Print(text)
}
