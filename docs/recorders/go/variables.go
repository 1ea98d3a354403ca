package rdrecord

import (
	"reflect"
	"strconv"
	"strings"
	"sync"
	"sync/atomic"
	"unsafe"
)

// object is an object of the trace that stands for a variable, a map or an object of the program.
type object struct {
	name  string
	first *lock             // from what it holds at first to whoever uses it
	users map[*thread]bool  // that were ordered behind that
	kept  any               // so that nothing else has its address
	last  string            // what a register holds by the trace
	held  map[string]string // what a dictionary holds by the trace
}

// variables are the objects that stand for something of the program.
type variables struct {
	found   sync.Map // by identity
	objects [64]sync.Mutex
}

// step is the lock of a step on what is at this address.
func (r *Recorder) step(at unsafe.Pointer) *sync.Mutex {
	return &r.variables.objects[uintptr(at)/16%uintptr(len(r.variables.objects))]
}

func (r *Recorder) foundAt(id identity) *object {
	if o, some := r.found.Load(id); some {
		return o.(*object)
	}
	return nil
}

// begin makes an object, and writes what it holds at first. The thread first does so, and whoever uses the object is ordered behind
// it by a lock of the object's own: nothing else is ordered by that. It is nil where no more objects may be. The step is locked.
func (r *Recorder) begin(id identity, kind, sort string, kept any, calls ...string) *object {
	r.mu.Lock()
	if r.objectCount >= mostNames-1 || r.locks >= mostLocks-1 {
		r.tellHeld("objects", "from here on new objects aren't recorded, for their number is limited")
		r.mu.Unlock()
		return nil
	}
	r.objectCount++
	r.near("objects", r.objectCount, mostNames)
	o := &object{name: r.fresh(sort), kept: kept}
	if len(calls) > 0 {
		o.first, o.users = r.newLockHeld("first"), map[*thread]bool{}
	}
	r.mu.Unlock()
	r.maker.lines("object " + o.name + " " + kind + "\n")
	if o.first != nil {
		r.maker.acquire(o.first)
		for _, call := range calls {
			r.maker.call(o, "", call)
		}
		r.maker.release(o.first)
	}
	r.found.Store(id, o)
	return o
}

// uses orders a thread behind what an object holds at first.
func (t *thread) uses(o *object) {
	if o.first != nil && !o.users[t] {
		o.users[t] = true
		t.sharePair(o.first)
	}
}

// call writes the line of a call: its method, arguments and result are words already.
func (t *thread) call(o *object, at, words string) {
	if t.r.logs {
		t.log(at, "call ", o.name, " ", words, "\n")
		return
	}
	t.lines(at, "call ", t.name, " ", o.name, " ", words, "\n")
}

// anything says whether values of any type may stand where a T does.
func anything[T any]() bool { return reflect.TypeOf((*T)(nil)).Elem().Kind() == reflect.Interface }

// Variable is a variable of the program that is recorded as a register.
type Variable[T any] struct {
	at   *T
	name string
}

// At is the variable at this address.
func At[T any](at *T, name string) Variable[T] { return Variable[T]{at, name} }

// step does something with the variable: do answers the line's words, and what the variable then holds.
func (x Variable[T]) step(do func(r *Recorder) (words, now string)) {
	t := outer()
	if t == nil {
		do(nil)
		return
	}
	r, at := t.r, place(t.r.callers)
	defer t.rest()
	id := identity{sort: reflect.TypeOf(x.at), at: unsafe.Pointer(x.at)}
	step := r.step(id.at)
	step.Lock()
	defer step.Unlock()
	o := r.foundAt(id)
	if now := r.spell(*x.at, anything[T]()); o == nil || o.last != now {
		if o != nil {
			r.tell("changed", "a variable was changed where that isn't recorded: a new object stands for it from then on")
		}
		calls := []string{"write " + now + " -> nil"}
		if now == "nil" {
			calls = nil
		}
		if o = r.begin(id, "register", x.name, x.at, calls...); o == nil {
			r.found.Delete(id)
			do(nil)
			return
		}
	}
	t.uses(o)
	words := ""
	words, o.last = do(r)
	t.call(o, at, words)
}

// Get reads it.
func (x Variable[T]) Get() (v T) {
	x.step(func(r *Recorder) (words, now string) {
		if v = *x.at; r != nil {
			now = r.spell(v, anything[T]())
		}
		return "read -> " + now, now
	})
	return v
}

// Set assigns it.
func (x Variable[T]) Set(v T) {
	x.step(func(r *Recorder) (words, now string) {
		if *x.at = v; r != nil {
			now = r.spell(v, anything[T]())
		}
		return "write " + now + " -> nil", now
	})
}

// Wrote is an assignment that was done directly before.
func (x Variable[T]) Wrote() {
	t := outer()
	if t == nil {
		return
	}
	at := place(t.r.callers)
	id := identity{sort: reflect.TypeOf(x.at), at: unsafe.Pointer(x.at)}
	step := t.r.step(id.at)
	step.Lock()
	defer step.Unlock()
	if o := t.r.foundAt(id); o != nil { // else it is what the variable holds at first
		o.last = t.r.spell(*x.at, anything[T]())
		t.uses(o)
		t.call(o, at, "write "+o.last+" -> nil")
	}
}

// Held is a map of the program that is recorded as a dictionary.
type Held[K, V any] struct {
	held   any
	name   string
	size   func() int
	load   func(K) (V, bool)
	store  func(K, V)
	remove func(K)
	each   func(func(K, V))
}

// In is a map that is recorded.
func In[K comparable, V any](held map[K]V, name string) *Held[K, V] {
	return &Held[K, V]{held, name,
		func() int { return len(held) },
		func(key K) (v V, some bool) { v, some = held[key]; return v, some },
		func(key K, v V) { held[key] = v },
		func(key K) { delete(held, key) },
		func(body func(K, V)) {
			for key, v := range held {
				body(key, v)
			}
		}}
}

// InAny is In for keys of any type, which aren't comparable to Go before 1.20.
func InAny[V any](held map[any]V, name string) *Held[any, V] {
	return &Held[any, V]{held, name,
		func() int { return len(held) },
		func(key any) (v V, some bool) { v, some = held[key]; return v, some },
		func(key any, v V) { held[key] = v },
		func(key any) { delete(held, key) },
		func(body func(any, V)) {
			for key, v := range held {
				body(key, v)
			}
		}}
}

// present spells a value that a key has: nil says that there is none.
func present(text string) string {
	if text == "nil" {
		return `"~nil"`
	}
	return text
}

func (d *Held[K, V]) key(r *Recorder, key K) string { return r.spell(key, anything[K]()) }

func (d *Held[K, V]) value(r *Recorder, v V, some bool) string {
	if !some {
		return "nil"
	}
	return present(r.spell(v, anything[V]()))
}

// step does something with the map. Where its contents aren't those of the trace it was changed where that isn't recorded.
func (d *Held[K, V]) step(do func(r *Recorder, o *object) string, same func(r *Recorder, o *object) bool) {
	t, v := outer(), reflect.ValueOf(d.held)
	if t == nil || v.IsNil() {
		do(nil, nil)
		return
	}
	r, at := t.r, place(t.r.callers)
	defer t.rest()
	id := identity{sort: v.Type(), at: v.UnsafePointer()}
	step := r.step(id.at)
	step.Lock()
	defer step.Unlock()
	o := r.foundAt(id)
	if o == nil || d.size() != len(o.held) || !same(r, o) {
		if o != nil {
			r.tell("changed", "a map was changed where that isn't recorded: a new object stands for it from then on")
		}
		held, calls := map[string]string{}, []string{}
		d.each(func(k K, v V) {
			key, value := d.key(r, k), d.value(r, v, true)
			held[key] = value
			calls = append(calls, "put "+key+" "+value+" -> nil")
		})
		if o = r.begin(id, "dictionary", d.name, d.held, calls...); o == nil {
			r.found.Delete(id)
			do(nil, nil)
			return
		}
		o.held = held
	}
	t.uses(o)
	t.call(o, at, do(r, o))
}

// sameAt says whether a key has what the trace says.
func (d *Held[K, V]) sameAt(key K) func(r *Recorder, o *object) bool {
	return func(r *Recorder, o *object) bool {
		v, some := d.load(key)
		was, has := o.held[d.key(r, key)]
		return some == has && (!some || was == d.value(r, v, true))
	}
}

// Get is a key's value.
func (d *Held[K, V]) Get(key K) V {
	v, _ := d.Get2(key)
	return v
}

// Get2 is a key's value, and whether it has one.
func (d *Held[K, V]) Get2(key K) (v V, some bool) {
	d.step(func(r *Recorder, o *object) string {
		v, some = d.load(key)
		if r == nil {
			return ""
		}
		return "get " + d.key(r, key) + " -> " + d.value(r, v, some)
	}, d.sameAt(key))
	return v, some
}

// Put gives a key a value.
func (d *Held[K, V]) Put(key K, v V) {
	d.step(func(r *Recorder, o *object) string {
		old, some := d.load(key)
		d.store(key, v)
		if r == nil {
			return ""
		}
		name, value := d.key(r, key), d.value(r, v, true)
		o.held[name] = value
		return "put " + name + " " + value + " -> " + d.value(r, old, some)
	}, d.sameAt(key))
}

// Delete takes a key out.
func (d *Held[K, V]) Delete(key K) {
	d.step(func(r *Recorder, o *object) string {
		old, some := d.load(key)
		d.remove(key)
		if r == nil {
			return ""
		}
		delete(o.held, d.key(r, key))
		return "put " + d.key(r, key) + " nil -> " + d.value(r, old, some)
	}, d.sameAt(key))
}

// Len is how many keys have a value.
func (d *Held[K, V]) Len() (size int) {
	d.step(func(*Recorder, *object) string {
		size = d.size()
		return "size -> " + strconv.Itoa(size)
	}, func(*Recorder, *object) bool { return true })
	return size
}

// Sized is the map itself, for a range over it, which asks how many there are.
func Sized[K, V, M any](d *Held[K, V], held M) M {
	d.Len()
	return held
}

// Met is a key that a range met.
func (d *Held[K, V]) Met(key K) { d.Get2(key) }

// Method is a call of a recorded method of the program.
type Method struct {
	t    *thread
	o    *object
	at   string
	name string
	args string
}

// Enter begins a call of a method of an object, of this kind. Locks that it takes within aren't recorded.
func Enter(of any, kind, sort, name string, args ...any) *Method {
	t := me()
	if t == nil {
		return &Method{}
	}
	if atomic.AddInt32(&t.inside, 1) > 1 {
		return &Method{t: t}
	}
	r := t.r
	m := &Method{t: t, at: place(r.callers), name: name}
	for _, arg := range args {
		m.args += " " + r.spell(arg, false)
	}
	v := reflect.ValueOf(of)
	if v.Kind() != reflect.Pointer {
		return m
	}
	id := identity{sort: v.Type(), at: v.UnsafePointer(), size: -1}
	step := r.step(id.at)
	step.Lock()
	defer step.Unlock()
	if m.o = r.foundAt(id); m.o == nil {
		m.o = r.begin(id, kind, sort, of)
	}
	return m
}

// Leave writes the call's line, when the method has returned: nil, its result, the first where a second says that there is one or that
// there was no fault, or all as one text.
func (m *Method) Leave(results ...any) {
	if m.o == nil {
		return
	}
	m.t.call(m.o, m.at, m.name+m.args+" -> "+m.t.r.result(results))
}

// End ends a call, also one that panics, which has no line.
func (m *Method) End() {
	if m.t != nil && atomic.AddInt32(&m.t.inside, -1) == 0 {
		m.t.rest()
	}
}

func (r *Recorder) result(results []any) string {
	switch len(results) {
	case 0:
		return "nil"
	case 1:
		return r.spell(results[0], false)
	}
	last := results[len(results)-1]
	if len(results) == 2 {
		switch last := last.(type) {
		case bool:
			if !last {
				return "nil"
			}
			return present(r.spell(results[0], false))
		case nil:
			return r.spell(results[0], false)
		case error:
			return r.spell(last, true)
		}
	}
	words := []string{}
	for _, result := range results {
		words = append(words, r.spell(result, true))
	}
	return r.quote(mark + strings.Join(words, " "))
}
