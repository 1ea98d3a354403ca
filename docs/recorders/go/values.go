package rdrecord

import (
	"fmt"
	"math"
	"reflect"
	"strconv"
	"strings"
	"sync"
	"unsafe"
)

// values gives numbers to what isn't spelled by its value.
type values struct {
	valueLock sync.Mutex
	numbers   map[identity]int // what stands here is kept, so that no number is given again
	texts     map[string]int   // of texts that are too long
	types     map[reflect.Type]string
	typeNames map[string]int
}

// identity is what makes a value that may change the same one.
type identity struct {
	sort      reflect.Type
	at        unsafe.Pointer
	size, cap int
}

// A text that begins with ~ is no text of the program: those of the program that do have one more.
const mark = "~"

// spell is a value as the trace has it: equal ones alike, different ones differently, as == has it. Where any type may stand
// in this place the type is told too, but for the commonest.
func (r *Recorder) spell(value any, anyType bool) string {
	v := reflect.ValueOf(value)
	if !v.IsValid() {
		return "nil"
	}
	plain := !anyType
	switch sort := v.Type(); v.Kind() {
	case reflect.Bool:
		if plain || sort == reflect.TypeOf(false) {
			return strconv.FormatBool(v.Bool())
		}
	case reflect.Int, reflect.Int8, reflect.Int16, reflect.Int32, reflect.Int64:
		if plain || sort == reflect.TypeOf(0) {
			return strconv.FormatInt(v.Int(), 10)
		}
	case reflect.Uint, reflect.Uint8, reflect.Uint16, reflect.Uint32, reflect.Uint64, reflect.Uintptr:
		if plain && v.Uint() <= math.MaxInt64 {
			return strconv.FormatUint(v.Uint(), 10)
		}
	case reflect.String:
		if plain || sort == reflect.TypeOf("") {
			return r.quote(escaped(v.String()))
		}
	case reflect.Pointer, reflect.Map, reflect.Chan, reflect.Slice, reflect.Func, reflect.UnsafePointer:
		if plain && v.IsNil() {
			return "nil"
		}
	}
	var out strings.Builder
	r.parts(&out, v, plain)
	return r.quote(mark + out.String())
}

// escaped is a text of the program.
func escaped(text string) string {
	if strings.HasPrefix(text, mark) {
		return mark + text
	}
	return text
}

// parts spells a value with its type, in such a way that different ones differ. Numbers with a point go without where plain.
func (r *Recorder) parts(out *strings.Builder, v reflect.Value, plain bool) {
	if !v.IsValid() {
		out.WriteString("nil")
		return
	}
	if !plain || v.Kind() == reflect.Struct || v.Kind() == reflect.Array {
		out.WriteString(r.typeName(v.Type()))
		out.WriteString(" ")
	}
	switch v.Kind() {
	case reflect.Bool:
		out.WriteString(strconv.FormatBool(v.Bool()))
	case reflect.Int, reflect.Int8, reflect.Int16, reflect.Int32, reflect.Int64:
		out.WriteString(strconv.FormatInt(v.Int(), 10))
	case reflect.Uint, reflect.Uint8, reflect.Uint16, reflect.Uint32, reflect.Uint64, reflect.Uintptr:
		out.WriteString(strconv.FormatUint(v.Uint(), 10))
	case reflect.Float32, reflect.Float64:
		out.WriteString(float(v.Float(), v.Type().Bits()))
	case reflect.Complex64, reflect.Complex128:
		c := v.Complex()
		out.WriteString(float(real(c), v.Type().Bits()/2) + " " + float(imag(c), v.Type().Bits()/2))
	case reflect.String:
		out.WriteString(strconv.Quote(v.String()))
	case reflect.Interface:
		r.parts(out, v.Elem(), false)
	case reflect.Struct:
		out.WriteString("{")
		for i := 0; i < v.NumField(); i++ {
			if v.Type().Field(i).Name != "_" {
				r.parts(out, v.Field(i), v.Field(i).Kind() != reflect.Interface)
				out.WriteString(" ")
			}
		}
		out.WriteString("}")
	case reflect.Array:
		for i := 0; i < v.Len(); i++ {
			r.parts(out, v.Index(i), true)
			out.WriteString(" ")
		}
	default:
		if v.IsNil() {
			out.WriteString("nil")
			return
		}
		if plain {
			out.WriteString(r.typeName(v.Type()))
		}
		out.WriteString("#" + strconv.Itoa(r.number(v)))
	}
}

// float is a number with a point: the two zeros are equal.
func float(number float64, bits int) string {
	if number == 0 {
		number = 0
	}
	return strconv.FormatFloat(number+0, 'g', -1, bits)
}

// number is that of a pointer or the like. What it points to is kept.
func (r *Recorder) number(v reflect.Value) int {
	id := identity{sort: v.Type()}
	switch v.Kind() {
	case reflect.Slice:
		id.at, id.size, id.cap = v.UnsafePointer(), v.Len(), v.Cap()
	case reflect.Func:
		id.at = v.UnsafePointer()
		if v.CanInterface() { // the closure, and not its code
			value := v.Interface()
			id.at = (*[2]unsafe.Pointer)(unsafe.Pointer(&value))[1]
		}
	default:
		id.at = v.UnsafePointer()
	}
	r.valueLock.Lock()
	defer r.valueLock.Unlock()
	if r.numbers == nil {
		r.numbers = map[identity]int{}
	}
	if r.numbers[id] == 0 {
		r.numbers[id] = len(r.numbers) + 1
	}
	return r.numbers[id]
}

// typeName is a name that no other type has.
func (r *Recorder) typeName(sort reflect.Type) string {
	r.valueLock.Lock()
	defer r.valueLock.Unlock()
	if r.types == nil {
		r.types, r.typeNames = map[reflect.Type]string{}, map[string]int{}
	}
	name, some := r.types[sort]
	if !some {
		name = sort.String()
		r.typeNames[name]++
		if n := r.typeNames[name]; n > 1 {
			name = fmt.Sprintf("%s:%d", name, n)
		}
		r.types[sort] = name
	}
	return name
}

// quote is a text as the trace has it. A long one is cut off, and has a number.
func (r *Recorder) quote(text string) string {
	if len(text) > 255 {
		r.valueLock.Lock()
		if r.texts == nil {
			r.texts = map[string]int{}
		}
		if r.texts[text] == 0 {
			r.texts[text] = len(r.texts) + 1
		}
		text = fmt.Sprintf("%slong#%d %s", mark, r.texts[text], text[:200])
		r.valueLock.Unlock()
	}
	out := make([]byte, 0, len(text)+2)
	out = append(out, '"')
	for i := 0; i < len(text); i++ {
		switch b := text[i]; {
		case b == '"' || b == '\\':
			out = append(out, '\\', b)
		case 0x20 <= b && b <= 0x7e:
			out = append(out, b)
		default:
			out = append(out, fmt.Sprintf("\\x%02x", b)...)
		}
	}
	return string(append(out, '"'))
}
