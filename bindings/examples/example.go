// A small history in Go: two commits on top of one, stored, and asked: `go run example.go LOG` of a new log. Where the header and the library
// stand elsewhere than the compiler looks, CGO_CFLAGS=-I.. and CGO_LDFLAGS=-L.. say it.
package main

/*
#cgo LDFLAGS: -lsegdag
#include <segdag.h>
#include <stdlib.h>
*/
import "C"

import (
	"encoding/hex"
	"errors"
	"fmt"
	"os"
	"runtime"
	"unsafe"
)

// ID is what others know a commit by.
type ID [C.SEGDAG_ID_SIZE]byte

func (id *ID) c() *C.segdag_id { return (*C.segdag_id)(unsafe.Pointer(id)) }

func (id ID) String() string { return hex.EncodeToString(id[:]) }

// Error is why a call failed.
type Error struct {
	Code int
	Text string
}

func (err *Error) Error() string { return err.Text }

// try makes a call. The library keeps failures by thread, and a goroutine may go to another one between two calls.
func try(call func() C.segdag_code) error {
	runtime.LockOSThread()
	defer runtime.UnlockOSThread()
	if code := call(); code != C.SEGDAG_OK {
		return &Error{int(code), C.GoString(&C.segdag_last_error().text[0])}
	}
	return nil
}

// Store is an open log, for any number of goroutines.
type Store struct{ raw *C.segdag_store }

// Create opens the log at this path, and makes it where there is none.
func Create(path string) (*Store, error) {
	named := C.CString(path)
	defer C.free(unsafe.Pointer(named))
	options := C.segdag_open_options{size: C.sizeof_segdag_open_options, flags: C.SEGDAG_OPEN_CREATE}
	var raw *C.segdag_store
	err := try(func() C.segdag_code { return C.segdag_store_open(named, &options, &raw) })
	return &Store{raw}, err
}

// Close lets go of the log. What wasn't flushed is gone.
func (store *Store) Close() { C.segdag_store_close(store.raw) }

// Add adds a pending commit.
func (store *Store) Add(id ID, parents ...ID) error {
	var first *C.segdag_id
	if len(parents) > 0 {
		first = parents[0].c()
	}
	var number C.uint64_t
	return try(func() C.segdag_code {
		return C.segdag_commit_add(store.raw, 0, id.c(), first, C.size_t(len(parents)), &number)
	})
}

// Flush stores what is pending, and moves what the head reaches to master. It gives how many commits that has then.
func (store *Store) Flush(head ID) (uint64, error) {
	sizes := C.segdag_sizes{size: C.sizeof_segdag_sizes}
	err := try(func() C.segdag_code { return C.segdag_session_flush(store.raw, 0, head.c(), 1, &sizes) })
	return uint64(sizes.master), err
}

// IsAncestor tells whether a is b, or an ancestor of b.
func (store *Store) IsAncestor(a, b ID) (bool, error) {
	var is C.bool
	err := try(func() C.segdag_code { return C.segdag_commit_is_ancestor(store.raw, 0, a.c(), b.c(), &is) })
	return bool(is), err
}

// Query gives the members of an expression, the newest first.
func (store *Store) Query(expression string) ([]ID, error) {
	text := C.CString(expression)
	defer C.free(unsafe.Pointer(text))
	var cursor *C.segdag_cursor
	if err := try(func() C.segdag_code {
		return C.segdag_query_open(store.raw, 0, text, C.size_t(len(expression)), &cursor)
	}); err != nil {
		return nil, err
	}
	defer C.segdag_cursor_close(cursor)
	members := make([]ID, int(C.segdag_cursor_left(cursor)))
	if len(members) == 0 {
		return members, nil
	}
	var count C.size_t
	return members, try(func() C.segdag_code {
		return C.segdag_cursor_next(cursor, members[0].c(), C.size_t(len(members)), &count)
	})
}

func run(path string) error {
	first, second, third := ID{1}, ID{2}, ID{3}
	store, err := Create(path)
	if err != nil {
		return err
	}
	defer store.Close()
	if err := store.Add(first); err != nil {
		return err
	}
	for _, id := range []ID{second, third} {
		if err := store.Add(id, first); err != nil {
			return err
		}
	}
	stored, err := store.Flush(second)
	if err != nil {
		return err
	}
	is, err := store.IsAncestor(first, third)
	if err != nil {
		return err
	}
	heads, err := store.Query("heads(all)")
	if err != nil {
		return err
	}
	fmt.Println(stored, "in master; the first is an ancestor of the third:", is)
	for _, head := range heads {
		fmt.Println(head)
	}
	return store.Add(second)
}

func main() {
	path := "example.log"
	if len(os.Args) > 1 {
		path = os.Args[1]
	}
	err := run(path)
	fmt.Println("refused:", err)
	var failed *Error
	if !errors.As(err, &failed) || failed.Code != C.SEGDAG_DIFFERS {
		os.Exit(1)
	}
}
