// Package rdrecord records a run for rd2. A goroutine is known by its number, so nothing is handed on.
package rdrecord

import (
	"fmt"
	"math/rand"
	"os"
	"path/filepath"
	"runtime"
	"strconv"
	"strings"
	"sync"
	"sync/atomic"
	"time"
)

// What a trace may hold, and from where on the recorder says that the end is near.
const (
	mostThreads = 4096
	mostNames   = 65536
	mostLocks   = 63000 // behind these, names of locks are shared: see newLock
	sharedLocks = 1024
)

// Recorder writes the trace.
type Recorder struct {
	mu          sync.Mutex // the recorder's own lock: no event, and taken last
	path        string
	file        *os.File
	out         []byte // lines that aren't in the file yet
	fault       error
	flushed     time.Time
	closed      bool
	logs        bool // a log for each thread, in place of one trace
	shaking     bool
	callers     int             // so many callers' places above each call's place
	kinds       map[string]bool // of a file of objects: "dictionary sync.Map"
	counts      map[string]int  // how many names there are of each sort
	told        map[string]bool
	threads     int
	locks       int
	objectCount int
	shared      [sharedLocks]*lock
	known       sync.Map // the threads, by the numbers of their goroutines
	ended       []*thread
	rest        *thread // of the goroutines for which no thread is left
	all         []*thread
	main        *thread
	maker       *thread           // writes what objects hold at first
	places      map[uintptr]*lock // of atomic variables, by their addresses: one that is used again orders more
	named       map[string]*lock
	steps       [64]sync.Mutex // of atomic variables, in logs
	between     *lock          // from one test to the next
	values
	variables
}

// active is the recorder of the run, if there is one.
var active atomic.Pointer[Recorder]

// lock is a lock of the trace.
type lock struct {
	name  string
	count uint32 // of its acquires, in logs
	many  bool   // the name stands for several: written as pairs alone
}

// NewRecorder begins a trace in this file, and a comment says what it shows. The goroutine that calls it is the root, main.
func NewRecorder(path, about string) (*Recorder, error) {
	r := &Recorder{
		path: path, shaking: os.Getenv("RDRECORD_SHAKING") != "no", logs: os.Getenv("RDRECORD_LOGS") == "yes",
		counts: map[string]int{}, told: map[string]bool{}, places: map[uintptr]*lock{}, kinds: map[string]bool{}, named: map[string]*lock{},
	}
	r.callers, _ = strconv.Atoi(os.Getenv("RDRECORD_CALLERS"))
	if !r.logs {
		file, err := os.Create(path)
		if err != nil {
			return nil, err
		}
		r.file = file
		r.put("rdtrace 2\n# " + strings.Join(strings.Fields(about), " ") + "\nthread main\n")
	}
	r.main = r.newThread("main")
	r.main.begun = true
	r.known.Store(goroutine(), r.main)
	r.maker = r.newThread("first")
	r.main.fork(r.maker)
	active.Store(r)
	return r, nil
}

// begin records a program that wasn't changed by hand: the variables RDRECORD and RDRECORD_.. say how.
func begin(about string) {
	path := os.Getenv("RDRECORD")
	if path == "" {
		path = "run.trace"
	}
	if os.Getenv("RDRECORD_EACH") == "yes" { // the tests of several packages
		path = besides(path, strings.TrimSuffix(filepath.Base(os.Args[0]), ".test"))
	}
	if os.Getenv("RDRECORD_RUNNING") != "" { // a program that a recorded one started
		path = besides(path, strconv.Itoa(os.Getpid()))
	}
	os.Setenv("RDRECORD_RUNNING", "yes")
	r, err := NewRecorder(path, about)
	if err != nil {
		fmt.Fprintln(os.Stderr, "rdrecord: nothing is recorded:", err)
		return
	}
	objects, _ := os.ReadFile(os.Getenv("RDRECORD_OBJECTS"))
	for _, line := range strings.Split(string(objects), "\n") {
		if words := strings.Fields(line); len(words) == 2 {
			r.kinds[words[0]+" "+words[1]] = true
		}
	}
}

// besides is run.WORD.trace for run.trace.
func besides(path, word string) string {
	end := filepath.Ext(path)
	return strings.TrimSuffix(path, end) + "." + word + end
}

// Close ends the trace. What goroutines do from then on isn't recorded.
func (r *Recorder) Close() error {
	active.CompareAndSwap(r, nil)
	if r.logs {
		return r.closeLogs()
	}
	r.mu.Lock()
	defer r.mu.Unlock()
	if r.closed {
		return nil
	}
	alive := -1 // the one that asks
	r.known.Range(func(any, any) bool { alive++; return true })
	if alive > 0 {
		r.put("# goroutines that may go on: " + strconv.Itoa(alive) + ", of which nothing more is recorded\n")
	}
	r.closed = true
	r.write()
	if err := r.file.Close(); err != nil {
		return err
	}
	return r.fault
}

// End ends the trace of a program that wasn't changed by hand.
func End() {
	if r := active.Load(); r != nil {
		if err := r.Close(); err != nil {
			fmt.Fprintln(os.Stderr, "rdrecord:", err)
		}
	}
}

// Exit stands for os.Exit.
func Exit(status int) {
	End()
	os.Exit(status)
}

// put writes whole lines, and flushes now and then, for a program may end at any time. The recorder's lock is held.
func (r *Recorder) put(lines ...string) {
	if r.closed {
		return
	}
	for _, line := range lines {
		r.out = append(r.out, line...)
	}
	if now := time.Now(); len(r.out) > 1<<16 || now.Sub(r.flushed) > 10*time.Millisecond {
		r.flushed = now
		r.write()
	}
}

// write writes what is held back. The recorder's lock is held.
func (r *Recorder) write() {
	if _, err := r.file.Write(r.out); err != nil && r.fault == nil {
		r.fault = err
		fmt.Fprintln(os.Stderr, "rdrecord: the trace isn't whole:", err)
	}
	r.out = r.out[:0]
}

// flush writes what is held back.
func (r *Recorder) flush() {
	if r.logs {
		r.flushLogs()
		return
	}
	r.mu.Lock()
	defer r.mu.Unlock()
	if !r.closed {
		r.write()
	}
}

// tell says something once for each sort, as a comment. The recorder's lock isn't held.
func (r *Recorder) tell(sort, text string) {
	r.mu.Lock()
	defer r.mu.Unlock()
	r.tellHeld(sort, text)
}

func (r *Recorder) tellHeld(sort, text string) {
	if r.told[sort] {
		return
	}
	r.told[sort] = true
	if r.logs {
		fmt.Fprintln(os.Stderr, "rdrecord:", text)
	} else {
		r.put("# " + text + "\n")
	}
}

// near says that a limit is near. The recorder's lock is held.
func (r *Recorder) near(what string, have, most int) {
	if have >= most-most/10 && !r.told["near "+what] {
		text := fmt.Sprintf("near the limit %s %d", what, most)
		r.tellHeld("near "+what, text)
		if !r.logs {
			fmt.Fprintln(os.Stderr, "rdrecord:", text)
		}
	}
}

// fresh is a name that was never given before, as sort.1; what no name may have becomes a low line. The recorder's lock is held.
func (r *Recorder) fresh(sort string) string {
	clean := strings.Map(func(c rune) rune {
		if 'A' <= c && c <= 'Z' || 'a' <= c && c <= 'z' || '0' <= c && c <= '9' || strings.ContainsRune("_.:$#@-", c) {
			return c
		}
		return '_'
	}, sort)
	if len(clean) > 48 {
		clean = clean[:48]
	}
	r.counts[clean]++
	return clean + "." + strconv.Itoa(r.counts[clean])
}

// Fresh is a name that was never given before.
func (r *Recorder) Fresh(sort string) string {
	r.mu.Lock()
	defer r.mu.Unlock()
	return r.fresh(sort)
}

// newLock is a lock with a name of its own, or, near the limit, one of those that several share: then more is ordered.
func (r *Recorder) newLock(sort string) *lock {
	r.mu.Lock()
	defer r.mu.Unlock()
	return r.newLockHeld(sort)
}

func (r *Recorder) newLockHeld(sort string) *lock {
	r.locks++
	r.near("locks", r.locks, mostNames)
	if r.locks <= mostLocks {
		return &lock{name: r.fresh(sort)}
	}
	r.tellHeld("shared locks", "from here on locks share names, which orders more")
	slot := r.locks % sharedLocks
	if r.shared[slot] == nil {
		r.shared[slot] = &lock{name: r.fresh("shared"), many: true}
	}
	return r.shared[slot]
}

// acquire and the like write one line. The program holds the lock.
func (t *thread) acquire(l *lock) {
	if t.r.logs {
		t.logAcquire(l, "")
		return
	}
	t.lines("acquire ", t.name, " ", l.name, "\n")
}

func (t *thread) release(l *lock) {
	if t.r.logs {
		t.log("release ", l.name, "\n")
		return
	}
	t.lines("release ", t.name, " ", l.name, "\n")
}

// share takes a lock together with others. Logs have no such lines: a pair stands for them, here and at the giving back.
func (t *thread) share(l *lock) {
	if t.r.logs {
		t.pair(l)
		return
	}
	t.lines("share ", t.name, " ", l.name, "\n")
}

func (t *thread) unshare(l *lock) {
	if t.r.logs {
		t.pair(l)
		return
	}
	t.lines("unshare ", t.name, " ", l.name, "\n")
}

// pair is a message: what its thread did before comes before what follows each later pair of the lock.
func (t *thread) pair(l *lock) {
	if t.r.logs {
		t.logAcquire(l, "release "+l.name+"\n")
		return
	}
	t.lines("acquire ", t.name, " ", l.name, "\nrelease ", t.name, " ", l.name, "\n")
}

// sharePair is a message between which and others of its sort there is no order.
func (t *thread) sharePair(l *lock) {
	if t.r.logs {
		t.pair(l)
		return
	}
	t.lines("share ", t.name, " ", l.name, "\nunshare ", t.name, " ", l.name, "\n")
}

// lines writes what stands together.
func (t *thread) lines(words ...string) {
	if t.r.logs {
		t.log(words...)
		return
	}
	t.r.mu.Lock()
	t.r.put(words...)
	t.r.mu.Unlock()
}

// rest gives way, so that more orders are met: outside the recorder's lock, and never while a lock of the program is held.
func (t *thread) rest() {
	if !t.r.shaking || atomic.LoadInt32(&t.held) > 0 {
		return
	}
	if rand.Intn(64) == 0 {
		time.Sleep(50 * time.Microsecond)
	} else {
		runtime.Gosched()
	}
}

// Pair is a message by a lock that the program doesn't have: from each pair of this lock to all later ones.
func (r *Recorder) Pair(name string) {
	t := r.me()
	if t == nil {
		return
	}
	r.mu.Lock()
	l := r.named[name]
	if l == nil {
		l = r.newLockHeld(name)
		r.named[name] = l
	}
	r.mu.Unlock()
	t.pair(l)
	t.rest()
}
