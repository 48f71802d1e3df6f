// Goroutines, for `uring-run --threads`: without a word they write down in which order they ran; with `lost` two of them, each on a thread of its own, read a number from
// a file and write the next, and one of these may be lost.
package main

// #include <stdlib.h>
import "C"

import (
	"fmt"
	"os"
	"runtime"
	"strconv"
	"sync"
	"time"
)

const path = "turns.of.go"

func writeOrder() {
	var all sync.WaitGroup
	var lock sync.Mutex
	numbers, order := make(chan int), []int{}
	for worker := 0; worker < 4; worker++ {
		all.Add(1)
		go func(worker int) {
			defer all.Done()
			for number := range numbers {
				lock.Lock()
				order = append(order, worker*100+number)
				lock.Unlock()
				if number%7 == 0 {
					time.Sleep(time.Millisecond)
				}
			}
		}(worker)
	}
	for number := 0; number < 40; number++ {
		numbers <- number
	}
	close(numbers)
	all.Wait()
	for key := range map[int]int{1: 1, 2: 2, 3: 3, 4: 4, 5: 5} {
		fmt.Print(key, " ")
	}
	fmt.Println(order)
}

func add(all *sync.WaitGroup) {
	defer all.Done()
	runtime.LockOSThread()
	bytes, _ := os.ReadFile(path)
	number, _ := strconv.Atoi(string(bytes))
	os.WriteFile(path, []byte(strconv.Itoa(number+1)), 0600)
}

func main() {
	C.abs(1)
	if len(os.Args) < 2 {
		writeOrder()
		return
	}
	var all sync.WaitGroup
	os.WriteFile(path, []byte("0"), 0600)
	all.Add(2)
	go add(&all)
	go add(&all)
	all.Wait()
	bytes, _ := os.ReadFile(path)
	os.Remove(path)
	fmt.Println(string(bytes))
	if string(bytes) != "2" {
		os.Exit(1)
	}
}
