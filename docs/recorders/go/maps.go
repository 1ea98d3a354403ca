package rdrecord

import "sync"

// Map stands for a sync.Map. What is done before a key is given a value comes before what follows on each later look at the map.
// Where the file of objects has the line `dictionary sync.Map` it is an object too, and that doesn't order its calls themselves.
type Map struct {
	inner sync.Map
	mu    sync.Mutex // a step, where it is an object
	order order
	o     *object
	of    *Recorder
}

// step does what writes the map, or looks at it. The lines are those of the calls that it was.
func (m *Map) step(writes bool, do func(r *Recorder) []string) {
	t := outer()
	if t == nil {
		do(nil)
		return
	}
	r, l := t.r, m.order.of(t.r, "map")
	defer t.rest()
	if writes {
		t.pair(l)
	}
	if r.kinds["dictionary sync.Map"] {
		m.object(t, place(r.callers+1), do)
	} else {
		do(nil)
	}
	t.sharePair(l)
}

func (m *Map) object(t *thread, at string, do func(r *Recorder) []string) {
	m.mu.Lock()
	defer m.mu.Unlock()
	if m.of != t.r {
		calls := []string{}
		m.inner.Range(func(k, v any) bool {
			calls = append(calls, "put "+t.r.spell(k, true)+" "+m.value(t.r, v, true)+" -> nil")
			return true
		})
		m.of, m.o = t.r, t.r.begin(identity{}, "dictionary", "sync.Map", m, calls...)
	}
	if m.o == nil {
		do(nil)
		return
	}
	t.uses(m.o)
	for _, words := range do(t.r) {
		t.call(m.o, at, words)
	}
}

func (m *Map) value(r *Recorder, v any, some bool) string {
	if !some {
		return "nil"
	}
	return present(r.spell(v, true))
}

func (m *Map) get(r *Recorder, key, v any, some bool) []string {
	if r == nil {
		return nil
	}
	return []string{"get " + r.spell(key, true) + " -> " + m.value(r, v, some)}
}

func (m *Map) put(r *Recorder, key any, v, old string) []string {
	return []string{"put " + r.spell(key, true) + " " + v + " -> " + old}
}

// Load is a key's value.
func (m *Map) Load(key any) (v any, some bool) {
	m.step(false, func(r *Recorder) []string {
		v, some = m.inner.Load(key)
		return m.get(r, key, v, some)
	})
	return v, some
}

// Store gives a key a value.
func (m *Map) Store(key, v any) {
	m.step(true, func(r *Recorder) []string {
		if r == nil {
			m.inner.Store(key, v)
			return nil
		}
		old, some := m.inner.Load(key)
		m.inner.Store(key, v)
		return m.put(r, key, m.value(r, v, true), m.value(r, old, some))
	})
}

// LoadOrStore gives a key a value where it has none.
func (m *Map) LoadOrStore(key, v any) (has any, loaded bool) {
	m.step(true, func(r *Recorder) []string {
		has, loaded = m.inner.LoadOrStore(key, v)
		if r == nil || loaded {
			return m.get(r, key, has, loaded)
		}
		return m.put(r, key, m.value(r, v, true), "nil")
	})
	return has, loaded
}

// LoadAndDelete takes a key out.
func (m *Map) LoadAndDelete(key any) (v any, loaded bool) {
	m.step(true, func(r *Recorder) []string {
		v, loaded = m.inner.LoadAndDelete(key)
		if r == nil {
			return nil
		}
		return m.put(r, key, "nil", m.value(r, v, loaded))
	})
	return v, loaded
}

// Delete takes a key out.
func (m *Map) Delete(key any) { m.LoadAndDelete(key) }

// Range goes through all: each that it meets is a call of its own.
func (m *Map) Range(body func(key, v any) bool) {
	m.inner.Range(func(key, v any) bool {
		m.step(false, func(r *Recorder) []string { return m.get(r, key, v, true) })
		return body(key, v)
	})
}
