//go:build amd64

package rdrecord

import "unsafe"

// current is what the runtime keeps of the goroutine that asks.
func current() unsafe.Pointer
