package rdrecord

import (
	"sync"
	"sync/atomic"
	"unsafe"
)

// An atomic operation and its lines are one step. One that may write is ordered with all others on its variable, and loads
// aren't ordered with one another: Go promises less, an order from what wrote to what sees it.

// atomically does it, for the variable of this address.
func atomically(at unsafe.Pointer, writes bool, do func()) {
	t := outer()
	if t == nil {
		do()
		return
	}
	t.atomically(t.r.at(at), writes, do, &t.r.steps[uintptr(at)/8%uintptr(len(t.r.steps))])
	t.rest()
}

// at is the lock of the variable of this address.
func (r *Recorder) at(at unsafe.Pointer) *lock {
	r.mu.Lock()
	defer r.mu.Unlock()
	l := r.places[uintptr(at)]
	if l == nil {
		l = r.newLockHeld("atomic")
		r.places[uintptr(at)] = l
	}
	return l
}

// atomically does it and writes its lines. In logs a step has a lock that few variables share.
func (t *thread) atomically(l *lock, writes bool, do func(), step *sync.Mutex) {
	if t.r.logs {
		step.Lock()
		defer step.Unlock()
		do()
		t.pair(l)
		return
	}
	t.r.mu.Lock()
	defer t.r.mu.Unlock() // also where an atomic value panics
	do()
	if writes {
		t.r.put("acquire ", t.name, " ", l.name, "\nrelease ", t.name, " ", l.name, "\n")
	} else {
		t.r.put("share ", t.name, " ", l.name, "\nunshare ", t.name, " ", l.name, "\n")
	}
}

func loaded[T any](at *T, load func(*T) T) (v T) {
	atomically(unsafe.Pointer(at), false, func() { v = load(at) })
	return v
}

func stored[T any](at *T, v T, store func(*T, T)) {
	atomically(unsafe.Pointer(at), true, func() { store(at, v) })
}

func changed[T any](at *T, v T, change func(*T, T) T) (result T) {
	atomically(unsafe.Pointer(at), true, func() { result = change(at, v) })
	return result
}

func compared[T any](at *T, old, v T, compare func(*T, T, T) bool) (done bool) {
	atomically(unsafe.Pointer(at), true, func() { done = compare(at, old, v) })
	return done
}

// The functions of sync/atomic.

func LoadInt32(at *int32) int32          { return loaded(at, atomic.LoadInt32) }
func StoreInt32(at *int32, v int32)      { stored(at, v, atomic.StoreInt32) }
func SwapInt32(at *int32, v int32) int32 { return changed(at, v, atomic.SwapInt32) }
func CompareAndSwapInt32(at *int32, old, v int32) bool {
	return compared(at, old, v, atomic.CompareAndSwapInt32)
}
func AddInt32(at *int32, v int32) int32 { return changed(at, v, atomic.AddInt32) }

func LoadInt64(at *int64) int64          { return loaded(at, atomic.LoadInt64) }
func StoreInt64(at *int64, v int64)      { stored(at, v, atomic.StoreInt64) }
func SwapInt64(at *int64, v int64) int64 { return changed(at, v, atomic.SwapInt64) }
func CompareAndSwapInt64(at *int64, old, v int64) bool {
	return compared(at, old, v, atomic.CompareAndSwapInt64)
}
func AddInt64(at *int64, v int64) int64 { return changed(at, v, atomic.AddInt64) }

func LoadUint32(at *uint32) uint32           { return loaded(at, atomic.LoadUint32) }
func StoreUint32(at *uint32, v uint32)       { stored(at, v, atomic.StoreUint32) }
func SwapUint32(at *uint32, v uint32) uint32 { return changed(at, v, atomic.SwapUint32) }
func CompareAndSwapUint32(at *uint32, old, v uint32) bool {
	return compared(at, old, v, atomic.CompareAndSwapUint32)
}
func AddUint32(at *uint32, v uint32) uint32 { return changed(at, v, atomic.AddUint32) }

func LoadUint64(at *uint64) uint64           { return loaded(at, atomic.LoadUint64) }
func StoreUint64(at *uint64, v uint64)       { stored(at, v, atomic.StoreUint64) }
func SwapUint64(at *uint64, v uint64) uint64 { return changed(at, v, atomic.SwapUint64) }
func CompareAndSwapUint64(at *uint64, old, v uint64) bool {
	return compared(at, old, v, atomic.CompareAndSwapUint64)
}
func AddUint64(at *uint64, v uint64) uint64 { return changed(at, v, atomic.AddUint64) }

func LoadUintptr(at *uintptr) uintptr            { return loaded(at, atomic.LoadUintptr) }
func StoreUintptr(at *uintptr, v uintptr)        { stored(at, v, atomic.StoreUintptr) }
func SwapUintptr(at *uintptr, v uintptr) uintptr { return changed(at, v, atomic.SwapUintptr) }
func CompareAndSwapUintptr(at *uintptr, old, v uintptr) bool {
	return compared(at, old, v, atomic.CompareAndSwapUintptr)
}
func AddUintptr(at *uintptr, v uintptr) uintptr { return changed(at, v, atomic.AddUintptr) }

func LoadPointer(at *unsafe.Pointer) unsafe.Pointer     { return loaded(at, atomic.LoadPointer) }
func StorePointer(at *unsafe.Pointer, v unsafe.Pointer) { stored(at, v, atomic.StorePointer) }
func SwapPointer(at *unsafe.Pointer, v unsafe.Pointer) unsafe.Pointer {
	return changed(at, v, atomic.SwapPointer)
}
func CompareAndSwapPointer(at *unsafe.Pointer, old, v unsafe.Pointer) bool {
	return compared(at, old, v, atomic.CompareAndSwapPointer)
}

// The types of sync/atomic.

type Int32 struct{ v atomic.Int32 }

func (x *Int32) Load() (v int32) {
	atomically(unsafe.Pointer(x), false, func() { v = x.v.Load() })
	return v
}
func (x *Int32) Store(v int32) { atomically(unsafe.Pointer(x), true, func() { x.v.Store(v) }) }
func (x *Int32) Swap(v int32) (old int32) {
	atomically(unsafe.Pointer(x), true, func() { old = x.v.Swap(v) })
	return old
}
func (x *Int32) Add(v int32) (sum int32) {
	atomically(unsafe.Pointer(x), true, func() { sum = x.v.Add(v) })
	return sum
}
func (x *Int32) CompareAndSwap(old, v int32) (done bool) {
	atomically(unsafe.Pointer(x), true, func() { done = x.v.CompareAndSwap(old, v) })
	return done
}

type Int64 struct{ v atomic.Int64 }

func (x *Int64) Load() (v int64) {
	atomically(unsafe.Pointer(x), false, func() { v = x.v.Load() })
	return v
}
func (x *Int64) Store(v int64) { atomically(unsafe.Pointer(x), true, func() { x.v.Store(v) }) }
func (x *Int64) Swap(v int64) (old int64) {
	atomically(unsafe.Pointer(x), true, func() { old = x.v.Swap(v) })
	return old
}
func (x *Int64) Add(v int64) (sum int64) {
	atomically(unsafe.Pointer(x), true, func() { sum = x.v.Add(v) })
	return sum
}
func (x *Int64) CompareAndSwap(old, v int64) (done bool) {
	atomically(unsafe.Pointer(x), true, func() { done = x.v.CompareAndSwap(old, v) })
	return done
}

type Uint32 struct{ v atomic.Uint32 }

func (x *Uint32) Load() (v uint32) {
	atomically(unsafe.Pointer(x), false, func() { v = x.v.Load() })
	return v
}
func (x *Uint32) Store(v uint32) { atomically(unsafe.Pointer(x), true, func() { x.v.Store(v) }) }
func (x *Uint32) Swap(v uint32) (old uint32) {
	atomically(unsafe.Pointer(x), true, func() { old = x.v.Swap(v) })
	return old
}
func (x *Uint32) Add(v uint32) (sum uint32) {
	atomically(unsafe.Pointer(x), true, func() { sum = x.v.Add(v) })
	return sum
}
func (x *Uint32) CompareAndSwap(old, v uint32) (done bool) {
	atomically(unsafe.Pointer(x), true, func() { done = x.v.CompareAndSwap(old, v) })
	return done
}

type Uint64 struct{ v atomic.Uint64 }

func (x *Uint64) Load() (v uint64) {
	atomically(unsafe.Pointer(x), false, func() { v = x.v.Load() })
	return v
}
func (x *Uint64) Store(v uint64) { atomically(unsafe.Pointer(x), true, func() { x.v.Store(v) }) }
func (x *Uint64) Swap(v uint64) (old uint64) {
	atomically(unsafe.Pointer(x), true, func() { old = x.v.Swap(v) })
	return old
}
func (x *Uint64) Add(v uint64) (sum uint64) {
	atomically(unsafe.Pointer(x), true, func() { sum = x.v.Add(v) })
	return sum
}
func (x *Uint64) CompareAndSwap(old, v uint64) (done bool) {
	atomically(unsafe.Pointer(x), true, func() { done = x.v.CompareAndSwap(old, v) })
	return done
}

type Uintptr struct{ v atomic.Uintptr }

func (x *Uintptr) Load() (v uintptr) {
	atomically(unsafe.Pointer(x), false, func() { v = x.v.Load() })
	return v
}
func (x *Uintptr) Store(v uintptr) { atomically(unsafe.Pointer(x), true, func() { x.v.Store(v) }) }
func (x *Uintptr) Swap(v uintptr) (old uintptr) {
	atomically(unsafe.Pointer(x), true, func() { old = x.v.Swap(v) })
	return old
}
func (x *Uintptr) Add(v uintptr) (sum uintptr) {
	atomically(unsafe.Pointer(x), true, func() { sum = x.v.Add(v) })
	return sum
}
func (x *Uintptr) CompareAndSwap(old, v uintptr) (done bool) {
	atomically(unsafe.Pointer(x), true, func() { done = x.v.CompareAndSwap(old, v) })
	return done
}

type Bool struct{ v atomic.Bool }

func (x *Bool) Load() (v bool) {
	atomically(unsafe.Pointer(x), false, func() { v = x.v.Load() })
	return v
}
func (x *Bool) Store(v bool) { atomically(unsafe.Pointer(x), true, func() { x.v.Store(v) }) }
func (x *Bool) Swap(v bool) (old bool) {
	atomically(unsafe.Pointer(x), true, func() { old = x.v.Swap(v) })
	return old
}
func (x *Bool) CompareAndSwap(old, v bool) (done bool) {
	atomically(unsafe.Pointer(x), true, func() { done = x.v.CompareAndSwap(old, v) })
	return done
}

type Pointer[T any] struct{ v atomic.Pointer[T] }

func (x *Pointer[T]) Load() (v *T) {
	atomically(unsafe.Pointer(x), false, func() { v = x.v.Load() })
	return v
}
func (x *Pointer[T]) Store(v *T) { atomically(unsafe.Pointer(x), true, func() { x.v.Store(v) }) }
func (x *Pointer[T]) Swap(v *T) (old *T) {
	atomically(unsafe.Pointer(x), true, func() { old = x.v.Swap(v) })
	return old
}
func (x *Pointer[T]) CompareAndSwap(old, v *T) (done bool) {
	atomically(unsafe.Pointer(x), true, func() { done = x.v.CompareAndSwap(old, v) })
	return done
}

type Value struct{ v atomic.Value }

func (x *Value) Load() (v any) {
	atomically(unsafe.Pointer(x), false, func() { v = x.v.Load() })
	return v
}
func (x *Value) Store(v any) { atomically(unsafe.Pointer(x), true, func() { x.v.Store(v) }) }
func (x *Value) Swap(v any) (old any) {
	atomically(unsafe.Pointer(x), true, func() { old = x.v.Swap(v) })
	return old
}
func (x *Value) CompareAndSwap(old, v any) (done bool) {
	atomically(unsafe.Pointer(x), true, func() { done = x.v.CompareAndSwap(old, v) })
	return done
}
