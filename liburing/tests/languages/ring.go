// A ring by system calls of the runtime's own: a chain of a write, an fsync and a read, a hundred times in each of four
// goroutines, whose stacks are small and grow, with collections beside them. Run by uring-run; linked with nothing of ours. It
// uses a package in C, or it would be linked statically.
package main

/*
static int one(void) { return 1; }
*/
import "C"

import (
	"bytes"
	"fmt"
	"os"
	"runtime"
	"sync/atomic"
	"syscall"
	"unsafe"
)

const (
	setup, enter      = 425, 426
	fsync, read       = 3, 22
	write, link       = 23, 4
	turns, goroutines = 100, 4
)

type ring struct {
	fd            uintptr
	params        [30]uint32
	sq, cq, table []byte
}

func must(is bool, what string, words ...any) {
	if !is {
		fmt.Println(append([]any{what}, words...)...)
		os.Exit(1)
	}
}

func makeRing(entries uintptr) *ring {
	it := &ring{}
	fd, _, errno := syscall.Syscall(setup, entries, uintptr(unsafe.Pointer(&it.params)), 0)
	must(errno == 0, "io_uring_setup", errno)
	it.fd = fd
	mapped := func(offset int64) []byte {
		bytes, err := syscall.Mmap(int(fd), offset, 4096, syscall.PROT_READ|syscall.PROT_WRITE, syscall.MAP_SHARED|syscall.MAP_POPULATE)
		must(err == nil, "mmap", err)
		return bytes
	}
	it.sq, it.cq, it.table = mapped(0), mapped(0x8000000), mapped(0x10000000)
	return it
}

func word(at []byte, offset uint32) *uint32 {
	return (*uint32)(unsafe.Pointer(&at[offset]))
}

func (it *ring) put(code, flags uint8, fd int, bytes []byte, tag uint64) {
	tail := word(it.sq, it.params[11])
	slot := *tail % it.params[0]
	entry := (*[8]uint64)(unsafe.Pointer(&it.table[64*slot]))
	*entry = [8]uint64{uint64(code) | uint64(flags)<<8 | uint64(uint32(fd))<<32, 0, 0, uint64(len(bytes)), tag}
	if len(bytes) > 0 {
		entry[2] = uint64(uintptr(unsafe.Pointer(&bytes[0])))
	}
	*word(it.sq, it.params[16]+4*slot) = slot
	atomic.AddUint32(tail, 1)
}

// Submits, and waits again where a signal of the runtime's has ended the wait.
func (it *ring) submitAndWait(count uintptr) map[uint64]int32 {
	done, _, errno := syscall.Syscall6(enter, it.fd, count, count, 1, 0, 0)
	must(done == count, "io_uring_enter", done, errno)
	results := it.reap()
	for len(results) < int(count) {
		syscall.Syscall6(enter, it.fd, 0, 1, 1, 0, 0)
		for tag, result := range it.reap() {
			results[tag] = result
		}
	}
	return results
}

func (it *ring) reap() map[uint64]int32 {
	head, tail, results := word(it.cq, it.params[20]), word(it.cq, it.params[21]), map[uint64]int32{}
	for *head != atomic.LoadUint32(tail) {
		cell := it.cq[it.params[25]+16*(*head%it.params[1]):]
		results[*(*uint64)(unsafe.Pointer(&cell[0]))] = *(*int32)(unsafe.Pointer(&cell[8]))
		atomic.AddUint32(head, 1)
	}
	return results
}

// What requests point to mustn't move, as what stands on a stack does.
var texts, backs [goroutines][16]byte

func work(number int, ended chan<- bool) {
	file, err := os.CreateTemp("", "ring")
	must(err == nil, "a file", err)
	os.Remove(file.Name())
	ring, fd := makeRing(8), int(file.Fd())
	for turn := 0; turn < turns; turn++ {
		text, back := texts[number][:], backs[number][:]
		copy(text, fmt.Sprintf("by Go %d %08d", number, turn))
		ring.put(write, link, fd, text, 1)
		ring.put(fsync, link, fd, nil, 2)
		ring.put(read, 0, fd, back, 3)
		results := ring.submitAndWait(3)
		must(len(results) == 3 && results[1] == 16 && results[2] == 0 && results[3] == 16, "results", results)
		must(bytes.Equal(text, back), "read", string(back))
		if turn%10 == 0 {
			runtime.GC()
		}
	}
	runtime.KeepAlive(file)
	ended <- true
}

func main() {
	ended := make(chan bool)
	for number := 0; number < goroutines; number++ {
		go work(number, ended)
	}
	for number := 0; number < goroutines; number++ {
		<-ended
	}
	fmt.Println("Go:", turns*int(C.one()), "chains in each of", goroutines, "goroutines")
}
