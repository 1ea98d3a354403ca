package rdrecord

import (
	"sync"
	"sync/atomic"
)

// Locker is a sync.Locker.
type Locker = sync.Locker

// state is what is recorded of a lock of the program. It is touched while the lock is held.
type state struct {
	r      *Recorder
	l      *lock
	holder *thread
	pairs  bool // one goroutine took it and another gave it back: from then on written as pairs
}

// of makes the state one of this recorder.
func (s *state) of(r *Recorder, sort string) {
	if s.r != r {
		*s = state{r: r, l: r.newLock(sort)}
		s.pairs = s.l.many
	}
}

// taken is written behind the taking.
func (s *state) taken(t *thread, sort string) {
	s.of(t.r, sort)
	if s.pairs {
		t.pair(s.l)
	} else {
		t.acquire(s.l)
	}
	s.holder = t
	atomic.AddInt32(&t.held, 1)
}

// given is written before the giving back. Where another goroutine took the lock, that one's release is written here, and so
// is a pair for this one: what the taker did until now is ordered too, which Go doesn't promise.
func (s *state) given(t *thread, sort string) {
	s.of(t.r, sort)
	holder := s.holder
	s.holder = nil
	switch {
	case s.pairs || holder == nil:
		t.pair(s.l)
	case holder == t:
		t.release(s.l)
	default:
		t.r.tell("given back", "a lock that another goroutine gives back: written as pairs from here on")
		s.pairs = true
		holder.release(s.l)
		t.pair(s.l)
	}
	if holder != nil {
		atomic.AddInt32(&holder.held, -1)
	}
}

// Mutex stands for a sync.Mutex.
type Mutex struct {
	inner sync.Mutex
	state state
}

// NewMutex makes a mutex with a name of this sort.
func NewMutex(r *Recorder, sort string) *Mutex {
	m := &Mutex{}
	m.state.of(r, sort)
	return m
}

// Lock takes it.
func (m *Mutex) Lock() {
	m.inner.Lock()
	if t := outer(); t != nil {
		m.state.taken(t, "mutex")
	}
}

// TryLock tries to take it.
func (m *Mutex) TryLock() bool {
	got, t := m.inner.TryLock(), outer()
	if got && t != nil {
		m.state.taken(t, "mutex")
	} else if t != nil {
		t.rest()
	}
	return got
}

// Unlock gives it back.
func (m *Mutex) Unlock() {
	t := outer()
	if t != nil {
		m.state.given(t, "mutex")
	}
	m.inner.Unlock()
	if t != nil {
		t.rest()
	}
}

// RWMutex stands for a sync.RWMutex.
type RWMutex struct {
	inner   sync.RWMutex
	state   state
	mu      sync.Mutex // of the readers
	readers map[*thread]int
}

// NewRWMutex makes a lock for readers and writers with a name of this sort.
func NewRWMutex(r *Recorder, sort string) *RWMutex {
	m := &RWMutex{}
	m.state.of(r, sort)
	return m
}

// Lock takes it alone.
func (m *RWMutex) Lock() {
	m.inner.Lock()
	if t := outer(); t != nil {
		m.mu.Lock()
		m.state.taken(t, "rwmutex")
		m.mu.Unlock()
	}
}

// TryLock tries to take it alone.
func (m *RWMutex) TryLock() bool {
	got, t := m.inner.TryLock(), outer()
	if got && t != nil {
		m.mu.Lock()
		m.state.taken(t, "rwmutex")
		m.mu.Unlock()
	}
	return got
}

// Unlock gives it back that was taken alone.
func (m *RWMutex) Unlock() {
	t := outer()
	if t != nil {
		m.mu.Lock()
		m.state.given(t, "rwmutex")
		m.mu.Unlock()
	}
	m.inner.Unlock()
	if t != nil {
		t.rest()
	}
}

func (m *RWMutex) reads(t *thread) {
	m.mu.Lock()
	defer m.mu.Unlock()
	m.state.of(t.r, "rwmutex")
	if m.state.pairs {
		t.sharePair(m.state.l)
		return
	}
	t.share(m.state.l)
	if m.readers == nil {
		m.readers = map[*thread]int{}
	}
	m.readers[t]++
	atomic.AddInt32(&t.held, 1)
}

// RLock takes it as a reader.
func (m *RWMutex) RLock() {
	m.inner.RLock()
	if t := outer(); t != nil {
		m.reads(t)
	}
}

// TryRLock tries to take it as a reader.
func (m *RWMutex) TryRLock() bool {
	got, t := m.inner.TryRLock(), outer()
	if got && t != nil {
		m.reads(t)
	}
	return got
}

func (m *RWMutex) read(t *thread) {
	m.mu.Lock()
	defer m.mu.Unlock()
	m.state.of(t.r, "rwmutex")
	switch {
	case m.state.pairs:
		t.sharePair(m.state.l)
	case m.readers[t] > 0:
		t.unshare(m.state.l)
		m.gone(t)
	default: // whose share it is can't be told: all are given back here
		for reader, times := range m.readers {
			t.r.tell("given back", "a lock that another goroutine gives back: written as pairs from here on")
			m.state.pairs = true
			for ; times > 0; times-- {
				reader.unshare(m.state.l)
				m.gone(reader)
			}
		}
		t.sharePair(m.state.l)
	}
}

// gone counts a reader down.
func (m *RWMutex) gone(t *thread) {
	atomic.AddInt32(&t.held, -1)
	if m.readers[t]--; m.readers[t] == 0 {
		delete(m.readers, t)
	}
}

// RUnlock gives back what a reader took.
func (m *RWMutex) RUnlock() {
	t := outer()
	if t != nil {
		m.read(t)
	}
	m.inner.RUnlock()
	if t != nil {
		t.rest()
	}
}

type reader RWMutex

func (m *reader) Lock()   { (*RWMutex)(m).RLock() }
func (m *reader) Unlock() { (*RWMutex)(m).RUnlock() }

// RLocker is the lock as its readers have it.
func (m *RWMutex) RLocker() Locker { return (*reader)(m) }

// order is a lock of the trace that the program doesn't have, for what orders in another way.
type order struct {
	mu sync.Mutex
	r  *Recorder
	l  *lock
}

func (o *order) of(r *Recorder, sort string) *lock {
	o.mu.Lock()
	defer o.mu.Unlock()
	if o.r != r {
		o.r, o.l = r, r.newLock(sort)
	}
	return o.l
}

// WaitGroup stands for a sync.WaitGroup. Those that wait are ordered with one another, and those that count down aren't.
type WaitGroup struct {
	inner sync.WaitGroup
	order order
}

// NewWaitGroup makes a wait group with a name of this sort.
func NewWaitGroup(r *Recorder, sort string) *WaitGroup {
	w := &WaitGroup{}
	w.order.of(r, sort)
	return w
}

// Add counts, up or down.
func (w *WaitGroup) Add(count int) {
	t := outer()
	if count < 0 && t != nil {
		t.sharePair(w.order.of(t.r, "group"))
	}
	w.inner.Add(count)
	if count < 0 && t != nil {
		t.rest()
	}
}

// Done counts down.
func (w *WaitGroup) Done() { w.Add(-1) }

// Wait waits until the count is 0. What was done before each counting down comes before what follows.
func (w *WaitGroup) Wait() {
	w.inner.Wait()
	if t := outer(); t != nil {
		t.pair(w.order.of(t.r, "group"))
		t.rest()
	}
}

// Once stands for a sync.Once.
type Once struct {
	inner sync.Once
	order order
}

// Do calls f the first time. What it did comes before the end of each call.
func (o *Once) Do(f func()) {
	o.inner.Do(func() {
		defer func() {
			if t := outer(); t != nil {
				t.pair(o.order.of(t.r, "once"))
			}
		}()
		f()
	})
	if t := outer(); t != nil {
		t.sharePair(o.order.of(t.r, "once"))
	}
}

// Cond stands for a sync.Cond. Who wakes comes before each wait that ends later.
type Cond struct {
	L     Locker
	begun sync.Once
	inner *sync.Cond
	order order
}

// NewCond makes a condition.
func NewCond(l Locker) *Cond { return &Cond{L: l} }

func (c *Cond) cond() *sync.Cond {
	c.begun.Do(func() { c.inner = sync.NewCond(c.L) })
	return c.inner
}

func (c *Cond) wakes() {
	if t := outer(); t != nil {
		t.sharePair(c.order.of(t.r, "cond"))
	}
}

// Signal wakes one.
func (c *Cond) Signal() { c.wakes(); c.cond().Signal() }

// Broadcast wakes all.
func (c *Cond) Broadcast() { c.wakes(); c.cond().Broadcast() }

// Wait gives the lock back, waits, and takes it again.
func (c *Cond) Wait() {
	c.cond().Wait()
	if t := outer(); t != nil {
		t.pair(c.order.of(t.r, "cond"))
	}
}

// Pool stands for a sync.Pool: each Put comes before the later Gets.
type Pool struct {
	New   func() any
	inner sync.Pool
	order order
}

// Put puts an item in.
func (p *Pool) Put(item any) {
	if t := outer(); t != nil {
		t.sharePair(p.order.of(t.r, "pool"))
	}
	p.inner.Put(item)
}

// Get takes one out, or makes one.
func (p *Pool) Get() any {
	item := p.inner.Get()
	if item != nil {
		if t := outer(); t != nil {
			t.pair(p.order.of(t.r, "pool"))
		}
	} else if p.New != nil {
		item = p.New()
	}
	return item
}
