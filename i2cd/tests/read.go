// Reads READ_VIN of the sample profile's 58h from the device that pmb-i2cd makes, without the C library:
// a program of Go calls the kernel itself, so that no shim is in its way.
package main

import (
	"fmt"
	"os"
	"syscall"
	"unsafe"
)

type message struct {
	address, flags, length uint16
	bytes                  *byte
}

type transfer struct {
	messages *message
	count    uint32
}

func main() {
	file, err := os.OpenFile(os.Args[1], os.O_RDWR, 0)
	if err != nil {
		fmt.Println(err)
		os.Exit(1)
	}
	defer file.Close()
	code, word := [1]byte{0x88}, [2]byte{}
	messages := [2]message{{0x58, 0, 1, &code[0]}, {0x58, 1, 2, &word[0]}}
	call := transfer{&messages[0], 2}
	count, _, number := syscall.Syscall(syscall.SYS_IOCTL, file.Fd(), 0x0707,
		uintptr(unsafe.Pointer(&call)))
	fmt.Printf("%d %d %02x %02x\n", int(count), int(number), word[0], word[1])
}
