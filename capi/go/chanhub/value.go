package chanhub

// #include <chanhub.h>
import "C"

import (
	"encoding/hex"
	"strconv"
	"unsafe"
)

const mostBytes = len(C.chanhub_value{}.bytes)

// A Value is what a channel carries: a number or, from [Edition2] on, 0 to 32 bytes. Values can be compared with ==. The zero Value is
// the number 0.
type Value struct {
	raw C.chanhub_value
}

// Number returns a number as a Value.
func Number(number uint64) Value {
	return Value{C.chanhub_value{number: C.uint64_t(number)}}
}

// Bytes returns a copy of the bytes as a Value. It returns [ErrTooLong] if there are more than 32.
func Bytes(bytes []byte) (Value, error) {
	if len(bytes) > mostBytes {
		return Value{}, ErrTooLong
	}
	value := Value{C.chanhub_value{is_bytes: true, length: C.uint8_t(len(bytes))}}
	copy(value.places()[:], bytes)
	return value, nil
}

// Number returns the number. If v is bytes, it returns 0 and false.
func (v Value) Number() (number uint64, isNumber bool) {
	return uint64(v.raw.number), !bool(v.raw.is_bytes)
}

// Bytes returns the bytes. If v is a number, it returns nil and false.
func (v Value) Bytes() (bytes []byte, isBytes bool) {
	if !v.raw.is_bytes {
		return nil, false
	}
	return v.places()[:v.raw.length:v.raw.length], true
}

// String returns the value as a journal spells it, such as 7 or #00ff.
func (v Value) String() string {
	if bytes, isBytes := v.Bytes(); isBytes {
		return "#" + hex.EncodeToString(bytes)
	}
	return strconv.FormatUint(uint64(v.raw.number), 10)
}

// places returns where the bytes are, and room for more.
func (v *Value) places() *[mostBytes]byte {
	return (*[mostBytes]byte)(unsafe.Pointer(&v.raw.bytes))
}

// number returns the number, and 0 for bytes.
func (v *Value) number() uint64 {
	return uint64(v.raw.number)
}
