package rdrecord

import (
	"fmt"
	"os"
	"path/filepath"
	"reflect"
	"strconv"
	"strings"
	"sync"
	"sync/atomic"
	"time"
)

// thread is a thread of the trace, which is one goroutine.
type thread struct {
	r       *Recorder
	name    string
	held    int32   // locks of the program that it holds
	free    []*lock // locks of messages of which it is the last user, so that its next message may use them
	inside  int32   // recorded methods that it is in: their own locks aren't recorded
	pending *thread // what it is about to fork
	begun   bool
	common  bool       // several goroutines share it
	mu      sync.Mutex // of the log
	file    *os.File
	buffer  []byte
}

// me is the thread of the goroutine that asks, or nil where nothing is recorded.
func me() *thread {
	r := active.Load()
	if r == nil {
		return nil
	}
	return r.me()
}

func (r *Recorder) me() *thread {
	if active.Load() != r {
		return nil
	}
	number := goroutine()
	if t, some := r.known.Load(number); some {
		return t.(*thread)
	}
	return r.unknown(number, "goroutine")
}

// outer is me, or nil within a recorded method.
func outer() *thread {
	t := me()
	if t == nil || t.inside > 0 {
		return nil
	}
	return t
}

// unknown makes a thread of a goroutine whose start wasn't recorded: main forks it, so what main did before its first line is
// ordered before it, and nothing else is.
func (r *Recorder) unknown(number int64, sort string) *thread {
	r.tell("unknown", "a goroutine whose start isn't recorded: as if main had forked it here")
	t := r.newThread(sort)
	if t.begins() {
		t.r.main.lines(t.r.main.beginning(t))
	}
	r.known.Store(number, t)
	return t
}

// begins says whether this is the thread's first goroutine.
func (t *thread) begins() bool {
	t.r.mu.Lock()
	defer t.r.mu.Unlock()
	first := !t.begun
	t.begun = true
	return first
}

// beginning is the line by which t forks a thread.
func (t *thread) beginning(child *thread) string {
	if t.r.logs {
		return "fork " + child.name + "\n"
	}
	return "fork " + t.name + " " + child.name + "\n"
}

// newThread is a thread for a new goroutine. Where none is left it takes over one that has ended, or shares one: both order more.
func (r *Recorder) newThread(sort string) *thread {
	r.mu.Lock()
	defer r.mu.Unlock()
	if r.threads >= mostThreads-1 {
		r.tellHeld("threads", "from here on goroutines continue threads that have ended, which orders more")
		if len(r.ended) > 0 {
			t := r.ended[0]
			r.ended = r.ended[1:]
			return t
		}
		if r.rest == nil {
			r.rest = &thread{r: r, name: "rest.1", common: true}
			r.threads++
			r.all = append(r.all, r.rest)
		}
		return r.rest
	}
	r.threads++
	r.near("threads", r.threads, mostThreads)
	t := &thread{r: r, name: sort}
	if r.main != nil {
		t.name = r.fresh(sort)
	}
	r.all = append(r.all, t)
	return t
}

// fork writes that t begins child, or, where child is a thread again, a message to it.
func (t *thread) fork(child *thread) {
	switch {
	case child.begins():
		t.lines(t.beginning(child))
	case t != child:
		l := t.r.newLock("again")
		t.pair(l)
		child.pair(l)
	}
	if n := len(t.free); n > 1 && len(child.free) == 0 && !t.common && !child.common {
		child.free, t.free = append(child.free, t.free[n-1]), t.free[:n-1] // the fork comes before what the child does with it
	}
}

// run is what a goroutine does that was forked as this thread.
func (t *thread) run(body func()) {
	number := goroutine()
	t.r.known.Store(number, t)
	defer t.ends(number)
	body()
}

// ends says that the goroutine of this number ends. One that still holds a lock isn't continued.
func (t *thread) ends(number int64) {
	t.r.known.Delete(number)
	if atomic.LoadInt32(&t.held) == 0 && !t.common {
		t.r.mu.Lock()
		t.r.ended = append(t.r.ended, t)
		t.r.mu.Unlock()
	}
}

// Go starts body as a goroutine with a name of this sort. The answer waits for its end.
func (r *Recorder) Go(sort string, body func()) func() {
	ended, t := make(chan struct{}), r.me()
	if t == nil {
		go func() { defer close(ended); body() }()
		return func() { <-ended }
	}
	child := r.newThread(sort)
	end := r.newLock("end")
	t.fork(child)
	go func() {
		defer close(ended)
		child.run(func() {
			defer child.pair(end)
			body()
		})
	}()
	t.rest()
	return func() {
		<-ended
		if t := r.me(); t != nil {
			t.sharePair(end)
			t.rest()
		}
	}
}

// Wrap stands around the function of a go statement: the goroutine that asks forks the one that runs it.
func Wrap[F any](sort string, f F) F {
	t := me()
	if t == nil {
		return f
	}
	child := t.r.newThread(sort)
	t.fork(child)
	defer t.rest()
	return around(child, f)
}

// around is f, run as this thread.
func around[F any](child *thread, f F) F {
	if plain, same := any(f).(func()); same && plain != nil {
		return any(func() { child.run(plain) }).(F)
	}
	function := reflect.ValueOf(f)
	if function.Kind() != reflect.Func || function.IsNil() {
		return f
	}
	call := function.Call
	if function.Type().IsVariadic() {
		call = function.CallSlice
	}
	return reflect.MakeFunc(function.Type(), func(args []reflect.Value) (results []reflect.Value) {
		child.run(func() { results = call(args) })
		return results
	}).Interface().(F)
}

// Later is Wrap for a go statement whose arguments have to be evaluated first: Forked stands around the last of them.
func Later[F any](sort string, f F) F {
	t := me()
	if t == nil {
		return f
	}
	t.pending = t.r.newThread(sort)
	return around(t.pending, f)
}

// Forked writes the fork of what Later began.
func Forked[T any](last T) T {
	if t := me(); t != nil && t.pending != nil {
		t.fork(t.pending)
		t.pending = nil
	}
	return last
}

// AfterFunc stands for time.AfterFunc.
func AfterFunc(after time.Duration, f func()) *time.Timer {
	t := me()
	if t == nil {
		return time.AfterFunc(after, f)
	}
	child, first := t.r.newThread("timer"), int32(0)
	t.fork(child)
	return time.AfterFunc(after, func() {
		if atomic.AddInt32(&first, 1) == 1 {
			child.run(f)
		} else { // it was reset: nothing tells by whom
			f()
		}
	})
}

// tests is the lock by which one test comes before the next.
func (r *Recorder) tests() *lock {
	r.mu.Lock()
	defer r.mu.Unlock()
	if r.between == nil {
		r.between = r.newLockHeld("tests")
	}
	return r.between
}

// test is a test of package testing.
type test interface {
	Name() string
	Cleanup(func())
}

// Test stands at the beginning of a test function. The tests before it have ended, and its end comes before what follows.
func Test(of test) {
	r := active.Load()
	if r == nil {
		return
	}
	number := goroutine()
	if _, some := r.known.Load(number); !some {
		r.unknown(number, of.Name())
	}
	t := r.me()
	if t == nil {
		return
	}
	t.lines("# test " + strconv.Quote(of.Name()) + "\n")
	t.pair(r.tests())
	of.Cleanup(func() { // behind the cleanups that the test asks for
		t.sharePair(r.tests())
		t.ends(number)
		r.flush()
	})
}

// Example stands at the beginning of an example, which the goroutine runs that began the tests: `defer Example()()`.
func Example() func() {
	t := me()
	if t == nil {
		return func() {}
	}
	t.pair(t.r.tests())
	return func() { t.sharePair(t.r.tests()) }
}

// RunAll stands for the Run of a *testing.M.
func RunAll(tests interface{ Run() int }) int {
	status := tests.Run()
	if t := me(); t != nil {
		t.pair(t.r.tests())
		t.r.flush()
	}
	return status
}

// RunTest stands for the Run of a *testing.T.
func RunTest[T interface {
	test
	Run(string, func(T)) bool
}](of T, name string, body func(T)) bool {
	t := me()
	if t == nil {
		return of.Run(name, body)
	}
	child := t.r.newThread("test")
	t.fork(child)
	end := t.r.newLock("end")
	done := of.Run(name, func(of T) {
		number := goroutine()
		t.r.known.Store(number, child)
		of.Cleanup(func() {
			child.sharePair(t.r.tests())
			child.pair(end)
			child.ends(number)
		})
		body(of)
	})
	t.sharePair(end)
	return done
}

// Parallel stands for the Parallel of a *testing.T.
func Parallel(of interface{ Parallel() }) {
	of.Parallel()
	if t := me(); t != nil {
		t.pair(t.r.tests())
	}
}

// logAcquire counts an acquire of a lock and adds it to the log, in one step, for several goroutines may share a thread.
func (t *thread) logAcquire(l *lock, then string) {
	t.mu.Lock()
	defer t.mu.Unlock()
	t.logHeld("acquire ", l.name, " ", strconv.Itoa(int(atomic.AddUint32(&l.count, 1))), "\n", then)
}

// log adds to the log of this thread. Only a lock that another gives back is written by another.
func (t *thread) log(words ...string) {
	t.mu.Lock()
	defer t.mu.Unlock()
	t.logHeld(words...)
}

func (t *thread) logHeld(words ...string) {
	for _, word := range words {
		t.buffer = append(t.buffer, word...)
	}
	if len(t.buffer) > 1<<15 {
		t.write()
	}
}

// write writes the log's buffer. Its lock is held.
func (t *thread) write() {
	if t.file == nil {
		file, err := os.Create(logOf(t.r.path, t.name))
		if err != nil {
			fmt.Fprintln(os.Stderr, "rdrecord:", err)
			t.buffer = nil
			return
		}
		t.file = file
		file.WriteString("rdlog 1 " + t.name + "\n")
	}
	t.file.Write(t.buffer)
	t.buffer = t.buffer[:0]
}

// logOf is run.T.log for run.trace.
func logOf(path, thread string) string {
	return strings.TrimSuffix(path, filepath.Ext(path)) + "." + thread + ".log"
}

func (r *Recorder) flushLogs() {
	r.mu.Lock()
	all := append([]*thread{}, r.all...)
	r.mu.Unlock()
	for _, t := range all {
		t.mu.Lock()
		t.write()
		t.mu.Unlock()
	}
}

func (r *Recorder) closeLogs() error {
	r.flushLogs()
	r.mu.Lock()
	defer r.mu.Unlock()
	r.closed = true
	var fault error
	for _, t := range r.all {
		t.mu.Lock()
		if t.file != nil {
			if err := t.file.Close(); err != nil {
				fault = err
			}
		}
		t.mu.Unlock()
	}
	return fault
}
