// A ring whose descriptor the runtime's own poller waits for: by edges, as it waits for all, and by system calls of its own. A goroutine posts, and another
// is told of each. Run by uring-run, which has to see that; linked with nothing of ours. It uses a package in C, or it would be linked statically.
package main

/*
static int one(void) { return 1; }
*/
import "C"

import (
	"fmt"
	"os"
	"sync"
	"sync/atomic"
	"syscall"
	"time"
	"unsafe"
)

const (
	setup, enter = 425, 426
	getEvents    = 1
	before, told = 100, 20
)

type ring struct {
	sync.Mutex
	fd                     uintptr
	params                 [30]uint32
	memory                 []byte
	tail, head, posted, at *uint32
}

func must(is bool, what string, words ...any) {
	if !is {
		fmt.Println(append([]any{what}, words...)...)
		os.Exit(1)
	}
}

func (r *ring) word(offset uint32) *uint32 {
	return (*uint32)(unsafe.Pointer(&r.memory[offset]))
}

func makeRing() *ring {
	r := &ring{}
	fd, _, fault := syscall.Syscall(setup, 8, uintptr(unsafe.Pointer(&r.params)), 0)
	must(fault == 0, "setup", fault)
	r.fd = fd
	memory, err := syscall.Mmap(int(fd), 0, 4096, syscall.PROT_READ|syscall.PROT_WRITE, syscall.MAP_SHARED)
	must(err == nil, "mmap", err)
	r.memory = memory
	r.tail, r.at = r.word(r.params[11]), r.word(r.params[16])
	r.head, r.posted = r.word(r.params[20]), r.word(r.params[21])
	return r
}

// Posts the completion of a no-op: each entry is one, as its memory is 0.
func (r *ring) post() {
	r.Lock()
	defer r.Unlock()
	*r.at = 0
	atomic.AddUint32(r.tail, 1)
	wanted := atomic.LoadUint32(r.posted) - atomic.LoadUint32(r.head) + 1
	taken, _, fault := syscall.Syscall6(enter, r.fd, 1, uintptr(wanted), getEvents, 0, 0)
	must(taken == 1 && fault == 0, "enter", fault)
}

func (r *ring) reapAll() int {
	r.Lock()
	defer r.Unlock()
	posted := atomic.LoadUint32(r.posted)
	return int(posted - atomic.SwapUint32(r.head, posted))
}

func main() {
	r := makeRing()
	for i := 0; i < before; i++ {
		r.post()
		r.reapAll()
	}
	r.post()
	must(syscall.SetNonblock(int(r.fd), true) == nil, "nonblocking")
	file := os.NewFile(r.fd, "ring")
	must(file.SetReadDeadline(time.Now().Add(120*time.Second)) == nil, "the poller doesn't take it")
	raw, err := file.SyscallConn()
	must(err == nil, "raw", err)
	go func() {
		for i := 0; i < told; i++ {
			time.Sleep(2 * time.Millisecond)
			r.post()
		}
	}()
	reaped := 0
	err = raw.Read(func(uintptr) bool {
		reaped += r.reapAll()
		return reaped == int(told+C.one())
	})
	must(err == nil, "told of", reaped, err)
}
