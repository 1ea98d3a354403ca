// constructs clean|race OUT: what the recorder has, used once each; in a race one call has no order.
package main

import (
	"context"
	"errors"
	"fmt"
	"math"
	"os"
	"strings"
	"sync"
	"time"

	"rdrecord"
)

type number int

func (number) String() string { return "no number" } // the trace has the number

func want(is bool) {
	if !is {
		panic("it isn't so")
	}
}

func objects(to *rdrecord.Recorder) {
	x, y := rdrecord.NewRegister(to, "x", 0), rdrecord.NewRegister(to, "y", number(4))
	want(x.CompareAndSwap(0, 1) && !x.CompareAndSwap(0, 2) && x.Swap(3) == 1 && y.Read() == 4)
	set, shelf := rdrecord.NewSet[string](to, "set"), rdrecord.NewDictionary[string, float64](to, "shelf")
	want(set.Add("i") && !set.Add("i") && set.Contains("i") && set.Remove("i") && set.Size() == 0)
	_, found := shelf.PutIfAbsent("a", 0.5)
	had, _ := shelf.PutIfAbsent("a", 1.5)
	shelf.Delete("b")
	want(!found && had == 0.5 && shelf.Size() == 1)
}

func more(to *rdrecord.Recorder) {
	parts, high := rdrecord.NewBag[string](to, "parts"), rdrecord.NewPeak(to, "high")
	jobs, words := rdrecord.NewItemQueue[string](to, "jobs"), rdrecord.NewTally[string](to, "words")
	_, some := high.Get()
	want(!some)
	high.Raise(3)
	parts.Add("nut")
	jobs.Enqueue("a")
	jobs.Enqueue("b")
	guard := rdrecord.NewMutex(to, "guard")
	work := func() {
		guard.Lock()
		_, some := jobs.Dequeue()
		guard.Unlock()
		want(some)
		parts.Add("bolt")
		words.Hit("x")
		high.Raise(2)
	}
	first, second := to.Go("work", work), to.Go("work", work)
	first()
	second()
	_, some = jobs.Dequeue()
	want(!some && jobs.Size() == 0)
	want(parts.Remove("nut") && !parts.Remove("nut") && parts.Count("bolt") == 2)
	old, _ := high.Raise(7)
	peak, _ := high.Get()
	want(old == 3 && peak == 7 && words.Count("x") == 2 && words.Count("y") == 0 && words.Total() == 2)
}

// values are spelled alike where they are equal, whatever they are, and also where they change.
func values(to *rdrecord.Recorder) {
	shelf, last := rdrecord.NewItemQueue[any](to, "shelf"), rdrecord.NewRegister[any](to, "last", nil)
	list, table, long := []int{1}, map[string]int{}, strings.Repeat("long", 100)
	pair := struct {
		a any
		b float64
	}{int64(1), 0.5}
	all := []any{1, int64(1), uint8(1), "1", 1.0, '1', true, number(1), pair, &list, [2]string{"1", ""}, "~int64 1", long, long + "er",
		uint64(math.MaxUint64), math.Inf(1), complex(1, 0), errors.New("1"), errors.New("1"), time.Second}
	for _, value := range all {
		shelf.Enqueue(value)
		for _, other := range all {
			last.Write(value)
			want(last.CompareAndSwap(other, nil) == (value == other)) // where they are spelled alike and differ the replay tells
		}
	}
	for _, value := range all {
		is, some := shelf.Dequeue()
		want(some && is == value)
	}
	for _, value := range []any{&list, &table, (*int)(nil), make(chan int), time.Now(), math.NaN(), ""} {
		last.Write(value)
		list, table["a"] = append(list, 2), len(list)
		last.Read()
	}
	held := rdrecord.NewItemQueue[[]int](to, "held")
	held.Enqueue(list)
	list[0] = 7
	held.Dequeue()
	zero := rdrecord.NewDictionary[float64, string](to, "zero")
	zero.Put(0, long)
	text, some := zero.Get(math.Copysign(0, -1))
	want(some && text == long)
}

func channels(to *rdrecord.Recorder, race bool) {
	first, second := rdrecord.Made(make(chan int)), rdrecord.Made(make(chan string, 2))
	quit, never, x := rdrecord.Made(make(chan error)), rdrecord.Made(make(chan bool)), rdrecord.NewRegister(to, "x", 0)
	want(rdrecord.TrySelect(rdrecord.From(first), rdrecord.From(second)) == -1)
	begin := time.Now()
	want(rdrecord.Select(rdrecord.From(first), rdrecord.From(time.After(20*time.Millisecond))) == 1)
	want(time.Since(begin) >= 20*time.Millisecond)
	one := to.Go("one", func() {
		x.Write(1)
		for n := 1; n < 4; n++ {
			want(rdrecord.Select(rdrecord.To(first).Value(n), rdrecord.From(never)) == 0)
		}
	})
	two := to.Go("two", func() {
		if race {
			x.Read()
		}
		for n := 1; n < 4; n++ {
			rdrecord.To(second).Send(fmt.Sprint(n))
		}
		rdrecord.Close(quit)
	})
	for received, closed := 0, false; received < 6 || !closed; {
		a, b, c := rdrecord.From(first), rdrecord.From(second), rdrecord.From(quit)
		switch rdrecord.Select(a, b, c) {
		case 0:
			want(a.OK && a.V > 0 && x.Read() == 1)
			received++
		case 1:
			want(b.OK && b.V != "")
			received++
		default:
			want(!c.OK && c.V == nil)
			closed = true
		}
	}
	_, some := rdrecord.Receive2(quit)
	want(!some)
	one()
	two()
}

// messages are more than locks for messages could be, and a channel of capacity 1 is a lock.
func messages(to *rdrecord.Recorder) {
	there, turn, count := rdrecord.Made(make(chan int, 3)), rdrecord.Made(make(chan bool, 1)), rdrecord.NewRegister(to, "count", 0)
	wait := to.Go("sender", func() {
		for n := 0; n < 500; n++ {
			rdrecord.To(there).Send(n)
		}
		rdrecord.Close(there)
	})
	n := 0
	for got, each := rdrecord.Range(there); each.Next(&got); n++ {
		want(got == n)
	}
	want(n == 500)
	wait()
	waits := []func(){}
	for i := 0; i < 3; i++ {
		waits = append(waits, to.Go("turn", func() {
			for k := 0; k < 5; k++ {
				rdrecord.To(turn).Send(true)
				count.Write(count.Read() + 1)
				rdrecord.Receive(turn)
			}
		}))
	}
	for _, wait := range waits {
		wait()
	}
	want(count.Read() == 15)
	ctx, cancel := rdrecord.WithCancel(context.Background())
	to.Go("canceller", func() { count.Write(0); cancel() })
	rdrecord.Receive(ctx.Done())
	want(count.Read() == 0)
}

func groups(to *rdrecord.Recorder) {
	mutex, count, group := rdrecord.NewMutex(to, "mutex"), rdrecord.NewCounter(to, "count", 2), rdrecord.NewWaitGroup(to, "group")
	once, x := rdrecord.Once{}, rdrecord.NewRegister(to, "once", 0)
	group.Add(3)
	for n := 0; n < 3; n++ {
		to.Go("member", func() {
			for !mutex.TryLock() {
			}
			count.Add(1)
			mutex.Unlock()
			once.Do(func() { x.Write(1) })
			want(x.Read() == 1)
			group.Done()
		})
	}
	group.Wait()
	want(count.Get() == 5)
}

// locks have readers, a condition, and are given back by goroutines that didn't take them.
func locks(to *rdrecord.Recorder) {
	shelf, held := rdrecord.NewRWMutex(to, "shelf"), rdrecord.NewDictionary[string, int](to, "held")
	mutex, count := rdrecord.NewMutex(to, "handed"), rdrecord.NewRegister(to, "count", 0)
	ready, is := rdrecord.NewCond(shelf), false
	waits := []func(){to.Go("waker", func() {
		shelf.Lock()
		is = true
		shelf.Unlock()
		ready.Broadcast()
	})}
	for n := 0; n < 3; n++ {
		number := n
		waits = append(waits, to.Go("user", func() {
			shelf.Lock()
			for !is {
				ready.Wait()
			}
			held.Put("a", number)
			shelf.Unlock()
			shelf.RLock()
			held.Get("a")
			shelf.RUnlock()
			mutex.Lock()
			count.Write(count.Read() + 1)
			given := rdrecord.Made(make(chan bool))
			to.Go("giver", func() {
				count.Write(count.Read() + 1)
				mutex.Unlock()
				rdrecord.Close(given)
			})
			rdrecord.Receive(given)
			shelf.RLock()
			back := to.Go("reader", shelf.RUnlock)
			back()
		}))
	}
	for _, wait := range waits {
		wait()
	}
	want(count.Read() == 6)
}

// pool has workers, each a thread, which a channel hands tasks to.
func pool(to *rdrecord.Recorder) {
	type task struct {
		number int
		result chan int
	}
	tasks, done, all := rdrecord.Made(make(chan task)), rdrecord.NewWaitGroup(to, "workers"), rdrecord.NewRegister(to, "all", 0)
	for n := 0; n < 3; n++ {
		done.Add(1)
		to.Go("worker", func() {
			defer done.Done()
			for task, each := rdrecord.Range(tasks); each.Next(&task); {
				rdrecord.To(task.result).Send(task.number * 2)
			}
		})
	}
	sum := 0
	for n := 0; n < 10; n++ {
		one := task{n, rdrecord.Made(make(chan int, 1))}
		all.Write(all.Read() + n)
		rdrecord.To(tasks).Send(one)
		sum += rdrecord.Receive(one.result)
	}
	rdrecord.Close(tasks)
	done.Wait()
	want(sum == 2*all.Read())
}

func main() {
	to, err := rdrecord.NewRecorder(os.Args[2], "The constructs of the recorder.")
	if err != nil {
		panic(err)
	}
	objects(to)
	more(to)
	values(to)
	channels(to, os.Args[1] == "race")
	messages(to)
	groups(to)
	locks(to)
	pool(to)
	unknown := make(chan bool)
	var late sync.WaitGroup
	late.Add(1)
	stays := rdrecord.NewCounter(to, "stays", 0)
	go func() { // its start isn't recorded, and it outlives the trace
		stays.Add(1)
		unknown <- true
		<-unknown
		stays.Add(1)
		late.Done()
	}()
	<-unknown
	if err := to.Close(); err != nil {
		panic(err)
	}
	unknown <- true
	late.Wait()
	want(stays.Get() == 2)
}
