//go:build !amd64

package rdrecord

import "unsafe"

func current() unsafe.Pointer { return nil }
