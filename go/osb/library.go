// Package osb has service instances and service bindings as values, and the requests and answers of the Open Service
// Broker API 2.17. It is for both sides: the platform, which creates instances, and the broker, which sells them.
//
// It calls libosb, which is proved. The library decides what becomes of an instance, and it has every table and every
// text. This package carries values to C and back, and bytes between net/http and the library.
//
//   - [Record] and [Holding] are one instance or binding as a value: a Record is what a platform keeps of it, and a
//     Holding what a broker keeps. Each has a text for a column of a database.
//   - [ReceiveRequest], [WriteDescribedAnswer], [WriteNamedTarget], [ReadAnswer] and others read and write requests and
//     answers. [CheckCatalogue] and others read a catalogue.
//   - [DecidePoll] and [DecideDeprovision] are two of the platform's tables.
//
// Package pippinterm/broker is a broker over these values, as an http.Handler, and package pippinterm/platform a
// platform.
//
// The promises hold if the program around the values satisfies what docs/instance.md and docs/binding.md ask for under
// "What to write when", and the assumptions of docs/premises.md. docs/go.md has programs, and says how to build them.
//
// Errors are values: a [Status] of the library, which errors.Is finds, as in errors.Is(err, osb.ErrBusy). All functions
// may be called from any goroutine. The values own nothing.
package osb

/*
#cgo pkg-config: osb
#include <osb.h>
#include <stdlib.h>
#ifdef __GLIBC__
#include <malloc.h>
#endif

static void return_memory(void) {
#ifdef __GLIBC__
	malloc_trim(0);
#endif
}
*/
import "C"

import (
	"fmt"
	"sync"
)

// Version is the version of the library that is linked, as OSB_VERSION of osb.h has it: 300 for 0.3.0.
func Version() uint32 { return uint32(C.osb_version()) }

// HeaderVersion is the version of the osb.h over which this package was compiled. A program that is linked to a shared
// library has to compare it with Version: below 1.0, a library of another 0.x has another interface.
const HeaderVersion uint32 = C.OSB_VERSION

// errorOf returns nil if the call was done, and its status otherwise.
func errorOf(status C.uint32_t) error {
	if status == C.OSB_DONE {
		return nil
	}
	return Status(status)
}

// errorResult is what an empty text points to, since no pointer may be null. It is never read or written.
var errorResult [1]byte

// pointer is where the bytes begin.
func pointer(bytes []byte) *C.uint8_t {
	if len(bytes) == 0 {
		return (*C.uint8_t)(&errorResult[0])
	}
	return (*C.uint8_t)(&bytes[0])
}

// size is how many bytes there are.
func size(bytes []byte) C.size_t { return C.size_t(len(bytes)) }

// A firstBuffer is long enough for a record, a holding, a target and most bodies, so that one call writes them.
type firstBuffer struct {
	text   [512]byte
	needed C.size_t
}

// firstBuffers are those that no call uses.
var firstBuffers = sync.Pool{New: func() any { return new(firstBuffer) }}

// textFrom returns the text that a call writes: it calls again with a longer buffer where the first was too short.
func textFrom(write func(buffer *C.uint8_t, bytes C.size_t, needed *C.size_t) C.uint32_t) ([]byte, error) {
	first := firstBuffers.Get().(*firstBuffer)
	defer firstBuffers.Put(first)
	text, err := textIn(first.text[:], func(buffer []byte) (C.size_t, C.uint32_t) {
		status := write(pointer(buffer), size(buffer), &first.needed)
		return first.needed, status
	})
	if err != nil || len(text) > len(first.text) {
		return text, err
	}
	return append(make([]byte, 0, len(text)), text...), nil
}

// textIn returns the text that a call writes into a buffer, or into a longer one if the first is too short. The call
// returns how many bytes are needed, and its status.
func textIn(buffer []byte, write func(buffer []byte) (needed C.size_t, status C.uint32_t)) ([]byte, error) {
	needed, status := write(buffer)
	if status == C.OSB_TOO_SMALL {
		buffer = make([]byte, needed)
		needed, status = write(buffer)
	}
	if err := errorOf(status); err != nil {
		return nil, err
	}
	return buffer[:needed], nil
}

// optional is a text that may be missing, with whether it is there.
func optional(text *string) ([]byte, C.bool) {
	if text == nil {
		return nil, false
	}
	return []byte(*text), true
}

// ReturnMemory returns memory to the system that the library took and has freed, in some milliseconds. The C library
// keeps most of it otherwise: after 64 texts of 256 KiB it kept 200 MB, of which 80 MB were in use at once. If the C
// library isn't glibc, ReturnMemory does nothing.
func ReturnMemory() { C.return_memory() }

// A Status is what became of a call that wasn't done. It is an error, a value that may be compared, and what errors.Is
// looks for: errors.Is(err, osb.ErrBusy). Each has one meaning, whichever call returns it, and no number ever changes
// or is used again.
type Status uint32

// Error says what the status means.
func (s Status) Error() string {
	if meaning, ok := meanings[s]; ok {
		return "osb: " + meaning
	}
	return fmt.Sprintf("osb: status %d", uint32(s))
}

// name is the name of a number, or the number itself if it has none.
func name(kind string, number uint8, names []string) string {
	if int(number) < len(names) && names[number] != "" {
		return names[number]
	}
	return fmt.Sprintf("%s(%d)", kind, number)
}
