// A broker that sells folders. PORT and BROKER_PASSWORD are variables of its environment.
package main

import (
	"context"
	_ "embed"
	"flag"
	"log"
	"net"
	"os"
	"os/signal"
	"path/filepath"
	"syscall"
	"time"

	"pippinterm/broker"
	"pippinterm/broker/sqlite"
)

//go:embed catalogue.json
var document []byte

func main() {
	state := flag.String("state", "build/state", "the `folder` with everything that the broker keeps")
	flag.Parse()
	stop, cancel := signal.NotifyContext(context.Background(), os.Interrupt, syscall.SIGTERM)
	defer cancel()
	listener, err := net.Listen("tcp", "127.0.0.1:"+os.Getenv("PORT"))
	if err == nil {
		err = serve(context.Background(), stop, listener, *state, os.Getenv("BROKER_PASSWORD"))
	}
	if err != nil {
		log.Fatal(err)
	}
}

// serve answers requests until stop is done. What has begun then goes on to its end, with ctx.
func serve(ctx, stop context.Context, listener net.Listener, state, password string) error {
	users, err := broker.NewUsers(map[string][]string{"platform": {password}})
	if err != nil {
		return err
	}
	if err := os.MkdirAll(state, 0o700); err != nil {
		return err
	}
	store, err := sqlite.Open(ctx, filepath.Join(state, "holdings.sqlite"), observer{})
	if err != nil {
		return err
	}
	defer store.Close()
	service, err := newService(store, state)
	if err != nil {
		return err
	}
	sweeper := broker.NewSweeper(service, observer{})
	handler, err := broker.NewHandler(ctx, service, broker.HandlerOptions{
		Users: users, LongestBody: 1 << 20, AtOnce: 16, Touch: sweeper.Touch, Observer: observer{},
	})
	if err != nil {
		return err
	}
	stop, end := context.WithCancel(stop)
	served := make(chan error, 1)
	go func() {
		defer end()
		served <- broker.Serve(stop, listener, handler, observer{}) // waits for the requests that are being answered
	}()
	sweeper.Run(ctx, stop, 4, 5*time.Second) // goes on with unfinished work, also of a process that was killed
	return <-served
}

func newService(store broker.Store, state string) (*broker.Service, error) {
	catalogue, err := broker.NewCatalogue(document, broker.Abilities{Bindings: true})
	if err != nil {
		return nil, err
	}
	locks, err := broker.NewFileLocks(filepath.Join(state, "locks"))
	if err != nil {
		return nil, err
	}
	sold := backend(filepath.Join(state, "sold"))
	options := broker.ServiceOptions{FirstPoll: true, WaitForPoll: 10 * time.Minute}
	return broker.NewService(catalogue, store, sold, locks, options, observer{}), nil
}

// An observer logs what an operator has to know.
type observer struct{ broker.Silent }

func (observer) OnFailure(it broker.Failure) { log.Printf("%s %v: %v", it.Event, it.Key, it.Err) }
