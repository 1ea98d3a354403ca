// A shop whose clerks take orders from a channel and sell from a stock under its lock; in a race the owner changes a price without it.
// It knows nothing of the recorder. Run as: shop clean|race
package main

import (
	"fmt"
	"os"
	"sync"
)

type shop struct {
	lock   sync.RWMutex
	stock  map[string]int
	price  int
	income int
	opened sync.Once
}

type order struct {
	what string
	sold chan bool
}

func (s *shop) open() { s.opened.Do(func() { s.stock = map[string]int{"pears": 5, "plums": 40} }) }

func (s *shop) sell(what string) bool {
	s.open()
	s.lock.Lock()
	defer s.lock.Unlock()
	if s.stock[what] == 0 {
		return false
	}
	s.stock[what]--
	s.income += s.price
	return true
}

func (s *shop) look(what string) (int, bool) {
	s.lock.RLock()
	defer s.lock.RUnlock()
	left, some := s.stock[what]
	return left * s.price, some
}

func (s *shop) clerk(orders <-chan order) {
	for one := range orders {
		one.sold <- s.sell(one.what)
	}
}

func main() {
	s, orders, clerks := &shop{price: 2}, make(chan order, 2), sync.WaitGroup{}
	for i := 0; i < 3; i++ {
		clerks.Add(1)
		go func() {
			defer clerks.Done()
			s.clerk(orders)
		}()
	}
	shut := make(chan struct{})
	go func() {
		defer close(shut)
		for i := 0; i < 5; i++ {
			s.open()
			s.look("plums")
		}
	}()
	clerks.Add(1)
	go func() {
		defer clerks.Done()
		if len(os.Args) > 1 && os.Args[1] == "race" {
			s.price++ // the lock is left out
		}
	}()
	sold := 0
	for i := 0; i < 24; i++ {
		one := order{[]string{"pears", "plums"}[i%2], make(chan bool, 1)}
		select {
		case orders <- one:
		case <-shut:
			orders <- one
		}
		if <-one.sold {
			sold++
		}
	}
	close(orders)
	clerks.Wait()
	<-shut
	fmt.Println("sold", sold, "left", len(s.stock), "kinds, income", s.income > 0)
}
