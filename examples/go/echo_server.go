// echo_server [PORT [remote]]: answers each line of each client in capitals, over libtn by cgo. Lines are edited at the client if it can do
// that, and at the server if the second argument is given.
//
//	CGO_CFLAGS=-I$PWD/include CGO_LDFLAGS=$PWD/out/libtn.a go build -o echo_server examples/go/echo_server.go
package main

// #include "tn.h"
import "C"

import (
	"bytes"
	"errors"
	"fmt"
	"io"
	"net"
	"os"
	"unsafe"
)

const limit = 255

// A server end. One goroutine at a time uses it.
type server struct {
	held C.tn_server
}

func done(code C.tn_code) error {
	if code != C.TN_OK {
		return errors.New(C.GoString(C.tn_code_text(code)))
	}
	return nil
}

// Where bytes stand; nil if there are none.
func place(text []byte) *C.uint8_t {
	if len(text) == 0 {
		return nil
	}
	return (*C.uint8_t)(unsafe.Pointer(&text[0]))
}

// Takes as many bytes as cannot make too many entries, and returns how many.
func (s *server) feed(piece []byte) (int, error) {
	var taken C.size_t
	err := done(C.tn_server_feed_some(&s.held, place(piece), C.size_t(len(piece)), &taken))
	return int(taken), err
}

// Takes the first entry: its kind, and its text if it is a line.
func (s *server) take() (C.tn_kind, []byte, error) {
	var kind C.tn_kind
	var length C.size_t
	text := make([]byte, limit)
	if err := done(C.tn_server_take(&s.held, &kind)); err != nil {
		return kind, nil, err
	}
	err := done(C.tn_server_text(&s.held, place(text), limit, &length))
	return kind, text[:length], err
}

// Says all of it, and the echo.
func (s *server) say(text []byte) error {
	for {
		var count C.size_t
		if err := done(C.tn_server_say(&s.held, place(text), C.size_t(len(text)), &count)); err != nil {
			return err
		}
		if text = text[count:]; len(text) == 0 {
			return nil
		}
	}
}

// Sends all bytes that wait, from their place.
func (s *server) send(to io.Writer) error {
	var at *C.uint8_t
	var count C.size_t
	if err := done(C.tn_server_peek(&s.held, &at, &count)); err != nil || count == 0 {
		return err
	}
	if _, err := to.Write(unsafe.Slice((*byte)(unsafe.Pointer(at)), int(count))); err != nil {
		return err
	}
	return done(C.tn_server_sent(&s.held, count))
}

// The job: answers the entries that wait. True if the last one was an end of file.
func (s *server) answer() (bool, error) {
	for {
		if err := s.say(nil); err != nil {
			return false, err
		}
		kind, text, err := s.take()
		switch {
		case err != nil || kind == C.TN_NONE || kind == C.TN_EOF:
			return kind == C.TN_EOF, err
		case kind == C.TN_TEXT:
			err = s.say(bytes.ToUpper(text))
		default:
			err = s.say([]byte("^\n"))
		}
		if err != nil {
			return false, err
		}
	}
}

func serve(conn *net.TCPConn, atClient bool) error {
	flags := C.tn_flags{icrnl: true, isig: true, echo: true, echoe: true, echok: true, opost: true, onlcr: true}
	var sent C.bool
	s := new(server)
	defer C.tn_server_free(&s.held)
	if err := done(C.tn_server_start(&s.held, &flags, limit)); err != nil {
		return err
	}
	if err := done(C.tn_server_wish(&s.held, C.bool(atClient), &sent)); err != nil {
		return err
	}
	piece := make([]byte, 4096)
	rest := piece[:0]
	for {
		taken, err := s.feed(rest)
		if err != nil {
			s.send(conn) // the answers to what came before
			return err
		}
		rest = rest[taken:]
		isOver, err := s.answer()
		if sending := s.send(conn); err != nil || isOver || sending != nil {
			return err
		}
		if len(rest) == 0 {
			got, err := conn.Read(piece)
			if err != nil {
				return nil
			}
			rest = piece[:got]
		}
	}
}

func main() {
	port := "2323"
	if len(os.Args) > 1 {
		port = os.Args[1]
	}
	listener, err := net.Listen("tcp", "127.0.0.1:"+port)
	if err != nil {
		fmt.Fprintln(os.Stderr, "echo_server:", err)
		os.Exit(1)
	}
	fmt.Println("port", listener.Addr().(*net.TCPAddr).Port)
	for {
		conn, err := listener.Accept()
		if err != nil {
			continue // a client that had gone before
		}
		go func() {
			defer conn.Close()
			if err := serve(conn.(*net.TCPConn), len(os.Args) < 3); err != nil {
				fmt.Fprintln(os.Stderr, "echo_server:", err)
			}
			// What still comes is dropped: to close at once could cost the client what is on its way.
			conn.(*net.TCPConn).CloseWrite()
			io.Copy(io.Discard, conn)
		}()
	}
}
