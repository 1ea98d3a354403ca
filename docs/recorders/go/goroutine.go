package rdrecord

import (
	"bytes"
	"runtime"
	"sync"
	"unsafe"
)

// The number of a goroutine stands in what the runtime keeps of it, and in the first line of its stack, which takes some 5 us to ask for.
// So where the number stands is found out once, by goroutines that ask for both. Where that fails the slow way is taken.

// numberAt is where the number stands, or 0.
var numberAt = findNumber()

// goroutine is the number of the goroutine that asks. No number is given twice.
func goroutine() int64 {
	if numberAt != 0 {
		return *(*int64)(unsafe.Add(current(), numberAt))
	}
	return asked()
}

// asked is the number as the stack tells it.
func asked() (number int64) {
	var buffer [40]byte
	text := bytes.TrimPrefix(buffer[:runtime.Stack(buffer[:], false)], []byte("goroutine "))
	for _, c := range text {
		if c < '0' || c > '9' {
			break
		}
		number = number*10 + int64(c-'0')
	}
	return number
}

// findNumber is the only place that holds the right number for each of some goroutines.
func findNumber() uintptr {
	const places, goroutines = 40, 16
	var right [places]int
	var mu sync.Mutex
	var all sync.WaitGroup
	for n := 0; n < goroutines; n++ {
		all.Add(1)
		go func() {
			defer all.Done()
			of, number := current(), asked()
			if of == nil {
				return
			}
			mu.Lock()
			defer mu.Unlock()
			for i := range right {
				if *(*int64)(unsafe.Add(of, uintptr(i*8))) == number {
					right[i]++
				}
			}
		}()
	}
	all.Wait()
	found := uintptr(0)
	for i, times := range right {
		if times == goroutines {
			if found != 0 {
				return 0
			}
			found = uintptr(i * 8)
		}
	}
	return found
}
