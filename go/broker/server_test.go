package broker_test

import (
	"bufio"
	"context"
	"errors"
	"io"
	"net"
	"net/http"
	"testing"
	"time"

	"pippinterm/broker"
	"pippinterm/internal/diff"
	"pippinterm/internal/httpserver"
)

// An observer of the server hands on everything, with the route other.
func TestServerObserver(t *testing.T) {
	got, err := &recorder{}, errors.New("why")
	observer := broker.ServerObserver(got)
	observer.OnRejection(httpserver.RejectedRequest{
		Method: "PUT", Target: "/v2", Status: 400, Reason: "bad", Duration: time.Second, Address: "::1",
	})
	observer.OnFailure("http_server", err)
	want := &recorder{
		exchanges: []broker.Exchange{{
			Route: "other", Method: "PUT", Target: "/v2", Status: 400, Reason: "bad", Duration: time.Second, Address: "::1",
		}},
		failures: []broker.Failure{{Event: "http_server", Err: err}},
	}
	diff.Check(t, got, want, "the events")
}

// Serve answers by the handler, rejects a request with two ends, which the observer gets, and ends without an error
// once it is stopped.
func TestServe(t *testing.T) {
	listener := diff.Value(net.Listen("tcp", "127.0.0.1:0"))(t)
	stop, cancel := context.WithCancel(context.Background())
	defer cancel()
	got, served := &recorder{}, make(chan error, 1)
	handler := http.HandlerFunc(func(w http.ResponseWriter, r *http.Request) { _, _ = io.WriteString(w, r.Method) })
	go func() { served <- broker.Serve(stop, listener, handler, got) }()
	const twoEnds = "Content-Length: 5\r\nTransfer-Encoding: chunked\r\n\r\n0\r\n\r\n"
	for request, want := range map[string]int{
		"GET / HTTP/1.1\r\nHost: a\r\n\r\n":       http.StatusOK,
		"PUT / HTTP/1.1\r\nHost: a\r\n" + twoEnds: http.StatusBadRequest,
	} {
		t.Run(request[:3], func(t *testing.T) {
			if status := statusOf(t, listener.Addr(), request); status != want {
				t.Errorf("got %d for %q, want %d", status, request, want)
			}
		})
	}
	cancel()
	diff.NoError(t, <-served, "")
	if len(got.exchanges) != 1 || got.exchanges[0].Status != http.StatusBadRequest || got.exchanges[0].Route != "other" {
		t.Errorf("got %+v, want the request that was rejected", got.exchanges)
	}
}

// statusOf returns the status of the answer to a request.
func statusOf(t *testing.T, address net.Addr, request string) int {
	t.Helper()
	connection := diff.Value(net.Dial(address.Network(), address.String()))(t)
	defer connection.Close()
	diff.Value(io.WriteString(connection, request))(t)
	answer := diff.Value(http.ReadResponse(bufio.NewReader(connection), nil))(t)
	defer answer.Body.Close()
	return answer.StatusCode
}
