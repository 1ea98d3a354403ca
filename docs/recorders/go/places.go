package rdrecord

import (
	"fmt"
	"os"
	"path/filepath"
	"runtime"
	"strings"
	"sync"
)

// own is the folder of the recorder.
var own = func() string { _, file, _, _ := runtime.Caller(0); return filepath.Dir(file) }()

// here is the folder that the program begins in, or the one that RDRECORD_HERE names.
var here = func() string {
	if folder := os.Getenv("RDRECORD_HERE"); folder != "" {
		return folder
	}
	folder, _ := os.Getwd()
	return folder
}()

var placesOf sync.Map // the places of what stands at a program counter, innermost first, without those of the recorder

// place is the comment with the place of a call, below those of so many callers.
func place(callers int) string {
	var some [8]uintptr // mostly enough: what is further up costs more
	if comment, whole := placeOf(some[:runtime.Callers(3, some[:])], callers); whole {
		return comment
	}
	var all [64]uintptr
	comment, _ := placeOf(all[:runtime.Callers(3, all[:])], callers)
	return comment
}

func placeOf(counters []uintptr, callers int) (comment string, whole bool) {
	left := callers + 1
	for _, counter := range counters {
		found, known := placesOf.Load(counter)
		if !known {
			found = placesAt(counter)
			placesOf.Store(counter, found)
		}
		for _, line := range found.([]string) {
			comment = line + comment
			if left--; left == 0 {
				return comment, true
			}
		}
	}
	return comment, false
}

func placesAt(counter uintptr) (lines []string) {
	frames := runtime.CallersFrames([]uintptr{counter})
	for {
		frame, more := frames.Next()
		system := strings.HasPrefix(frame.Function, "runtime.") || strings.HasPrefix(frame.Function, "reflect.") || strings.HasPrefix(frame.Function, "testing.")
		if frame.File != "" && filepath.Dir(frame.File) != own && !system {
			lines = append(lines, fmt.Sprintf("# %s:%d\n", fromHere(frame.File), frame.Line))
		}
		if !more {
			return lines
		}
	}
}

// fromHere is the path of a file, from that folder where it is below it.
func fromHere(file string) string {
	if path, err := filepath.Rel(here, file); err == nil && !strings.HasPrefix(path, "..") {
		return path
	}
	return file
}
