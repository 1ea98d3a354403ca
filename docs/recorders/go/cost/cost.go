// cost prints what an assignment, a pair of Lock and Unlock, and a message cost, in nanoseconds of the clock for each goroutine's one.
// Run as it is it has Go's own cost; run by rdrecord-go, with the file of objects beside it, that of a recorded one.
package main

import (
	"fmt"
	"os"
	"strconv"
	"sync"
	"time"
)

type box struct {
	mu    sync.Mutex
	value int
}

// each runs body so many times in each of so many goroutines.
func each(goroutines, times int, body func(own *box, number int)) time.Duration {
	begin, all := time.Now(), sync.WaitGroup{}
	all.Add(goroutines)
	for n := 0; n < goroutines; n++ {
		go func() {
			own := &box{}
			for number := 0; number < times; number++ {
				body(own, number)
			}
			all.Done()
		}()
	}
	all.Wait()
	return time.Since(begin) / time.Duration(times)
}

func main() {
	times := 20000
	if len(os.Args) > 1 {
		times, _ = strconv.Atoi(os.Args[1])
	}
	fmt.Println("goroutines  assignment  lock pair  message")
	for _, goroutines := range []int{1, 4, 16} {
		shared, there := &box{}, make(chan int, 8)
		calls := each(goroutines, times, func(own *box, number int) { own.value = number })
		pairs := each(goroutines, times, func(*box, int) { shared.mu.Lock(); shared.mu.Unlock() })
		messages := each(goroutines, times/4, func(*box, int) { there <- 1; <-there })
		fmt.Printf("%10d %8d ns %7d ns %5d ns\n", goroutines, calls, pairs, messages)
	}
}
