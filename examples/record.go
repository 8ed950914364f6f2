// Records what goroutines do on a channel: `go run record.go >FILE`. Copy `recorder`, `call` and `recording`, and record
// every call. A channel has no ends; `close` is the sender's `drop_sender`. Each step of a `range` is a `recv`. A `select`
// with one case and a `default` is a `try_send` or a `try_recv`. Each case of a longer `select` is a future, `send_async`
// or `recv_async`, of a recorder of its own; those that lost return `dropped`.
package main

import (
	"fmt"
	"runtime"
	"sort"
	"strings"
	"sync"
	"sync/atomic"
)

var next atomic.Int64

type event struct {
	place int64
	line  string
}

// One for each goroutine.
type recorder struct {
	name   string
	events []event
}

// Makes a call, and records it with what `answer` says of its result.
func call[T any](here *recorder, text string, make func() T, answer func(T) string) T {
	begins := here.name + ": " + text
	here.events = append(here.events, event{next.Add(1), begins})
	result := make()
	place := next.Add(1)
	here.events = append(here.events, event{place, here.name + " -> " + answer(result)})
	return result
}

// The recording, once all goroutines of these recorders have ended.
func recording(opening string, recorders []*recorder) string {
	var events []event
	for _, it := range recorders {
		events = append(events, it.events...)
	}
	sort.Slice(events, func(a, b int) bool { return events[a].place < events[b].place })
	lines := []string{opening}
	for _, it := range events {
		lines = append(lines, it.line)
	}
	return strings.Join(lines, "\n")
}

func main() {
	messages := make(chan int, 2)
	p, q, r, closer := &recorder{name: "p"}, &recorder{name: "q"}, &recorder{name: "r"}, &recorder{name: "c"}
	var senders, all sync.WaitGroup
	for at, here := range []*recorder{p, q} {
		first, here := 10*(at+1), here
		senders.Add(1)
		go func() {
			defer senders.Done()
			// A thread of its own: goroutines that take turns on one overlap less.
			runtime.LockOSThread()
			for message := first; message < first+5; message++ {
				send := func() bool { messages <- message; return true }
				call(here, fmt.Sprint("send ", message), send, func(bool) string { return "sent" })
			}
		}()
	}
	all.Add(1)
	go func() {
		defer all.Done()
		senders.Wait()
		call(closer, "drop_sender", func() bool { close(messages); return true }, func(bool) string { return "done" })
	}()
	type received struct {
		message int
		isOpen  bool
	}
	receive := func() received { message, isOpen := <-messages; return received{message, isOpen} }
	answer := func(got received) string {
		if !got.isOpen {
			return "disconnected"
		}
		return fmt.Sprint("got ", got.message)
	}
	for call(r, "recv", receive, answer).isOpen {
	}
	all.Wait()
	fmt.Println(recording("bounded 2", []*recorder{p, q, r, closer}))
}
