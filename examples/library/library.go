// library TEXT..: the canonical links of pure identity URIs, by four goroutines, each with a session over the same tables.
// Build: go build library.go
package main

// #cgo pkg-config: tdl
// #include <tdl.h>
import "C"

import (
	"fmt"
	"os"
	"sync"
	"unsafe"
)

const threads = 4

var stem = []byte("https://id.gs1.org")

// A Session is in one call at a time, so each goroutine has its own.
type Session struct {
	handle C.tdl_handle
	out    [C.TDL_ROOM]byte
}

// pass returns a slice as C takes it: an empty one is null.
func pass(text []byte) (*C.uint8_t, C.size_t) {
	if len(text) == 0 {
		return nil, 0
	}
	return (*C.uint8_t)(unsafe.Pointer(&text[0])), C.size_t(len(text))
}

func choice() C.tdl_choice {
	return C.tdl_choice{size: C.sizeof_tdl_choice, from: C.TDL_PURE, to: C.TDL_CANON, filter: C.TDL_ANY_FILTER, gcp: C.TDL_ANY_GCP}
}

// Open opens a session over the built-in tables.
func Open() (*Session, error) {
	session, chosen, length := new(Session), choice(), C.size_t(0)
	at, count := pass(stem)
	status := C.tdl_open(&session.handle, &chosen, nil, 0, at, count, nil, 0, nil, 0, nil, 0, &length)
	return session, failed(status)
}

// Share returns a session over the same tables.
func (session *Session) Share() (*Session, error) {
	other, chosen := new(Session), choice()
	at, count := pass(stem)
	return other, failed(C.tdl_share(&other.handle, &session.handle, &chosen, nil, 0, at, count))
}

// Close closes the session.
func (session *Session) Close() { C.tdl_close(&session.handle) }

// Translate returns "ok" and the translation, or "no" and the reason why there is none.
func (session *Session) Translate(text []byte) (string, error) {
	length := C.size_t(0)
	at, count := pass(text)
	status := C.tdl_translate(&session.handle, at, count, (*C.uint8_t)(unsafe.Pointer(&session.out[0])), C.TDL_ROOM, &length)
	if status == C.TDL_NO {
		return "no " + string(session.out[:length]), nil
	}
	return "ok " + string(session.out[:length]), failed(status)
}

func failed(status C.uint32_t) error {
	if status != C.TDL_OK {
		return fmt.Errorf("libtdl: status %d", status)
	}
	return nil
}

func check(err error) {
	if err != nil {
		fmt.Fprintln(os.Stderr, err)
		os.Exit(1)
	}
}

func main() {
	texts := os.Args[1:]
	answers := make([]string, len(texts))
	first, err := Open()
	check(err)
	defer first.Close()
	var running sync.WaitGroup
	for k := 0; k < threads; k++ {
		session, err := first.Share()
		check(err)
		running.Add(1)
		go func(k int) {
			defer running.Done()
			defer session.Close()
			for n := k; n < len(texts); n += threads {
				answer, err := session.Translate([]byte(texts[n]))
				check(err)
				answers[n] = answer
			}
		}(k)
	}
	running.Wait()
	for _, answer := range answers {
		fmt.Println(answer)
	}
}
