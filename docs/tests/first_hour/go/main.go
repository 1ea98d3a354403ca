package main

import "sync"

type shop struct {
	guard sync.Mutex
	stock map[string]int
}

func (s *shop) deliver() {
	s.guard.Lock()
	defer s.guard.Unlock()
	s.stock["apples"]++
}

func (s *shop) sell() { s.stock["apples"]-- } // without the lock

func main() {
	s, done := &shop{stock: map[string]int{"apples": 10}}, sync.WaitGroup{}
	for _, work := range []func(){s.deliver, s.sell} {
		work := work
		done.Add(1)
		go func() { defer done.Done(); work() }()
	}
	done.Wait()
}
