// A platform that creates an instance and a binding at a broker of this machine, and deletes both. PORT and
// BROKER_PASSWORD are variables of its environment. Its argument is a folder with the file key. It may be killed.
package main

import (
	"context"
	"encoding/json"
	"fmt"
	"log"
	"os"
	"path/filepath"
	"time"

	"pippinterm/platform"
	"pippinterm/platform/client"
	"pippinterm/platform/sqlite"
	"pippinterm/platform/vault"
)

func main() {
	ctx, folder, options := context.Background(), os.Args[1], platform.Options{Worker: "a", FirstPace: time.Second / 10}
	sealing, _, err := vault.FromFiles(filepath.Join(folder, "key"))
	check(err)
	store, err := sqlite.Open(ctx, filepath.Join(folder, "orders.sqlite"))
	check(err)
	end, _, err := store.Only(ctx, options.Worker) // a lock on a file, which can't be lost
	check(err)
	if end == nil {
		log.Fatal("another process is this worker")
	}
	check(store.Free(ctx, options.Worker)) // what a process had in flight that was killed
	sending, err := client.New(client.Options{Password: client.NewPasswords(sealing, nil).Of})
	check(err)
	engine := platform.NewEngine(store, sending, sealing, options, observer{})
	orders := platform.NewOrders(store, sealing)
	if brokers, err := store.Brokers(ctx); err == nil && len(brokers) == 0 { // with an error, RunOnce fails too
		folders := platform.Broker{Name: "folders", URL: "http://127.0.0.1:" + os.Getenv("PORT"), User: "platform"}
		check(orders.AddBroker(ctx, folders, []byte(os.Getenv("BROKER_PASSWORD"))))
	}
	check(engine.RunOnce(ctx)) // asks the broker for its catalogue, which Create looks at
	instance, err := orders.Create(ctx, platform.NewInstance{Service: "folder", Plan: "later"})
	check(err)
	settle(ctx, engine, store, "instance", instance.Key)
	binding, err := orders.Bind(ctx, platform.NewBinding{Instance: instance.Names.Instance})
	check(err)
	settle(ctx, engine, store, "binding", binding.Key)
	object, err := orders.Credentials(ctx, binding.Key)
	check(err)
	var answer struct{ Credentials map[string]json.RawMessage }
	check(json.Unmarshal(object, &answer))
	for name := range answer.Credentials {
		fmt.Println("credentials:", name)
	}
	_, err = orders.Remove(ctx, instance.Key, true) // its binding first
	check(err)
	settle(ctx, engine, store, "binding", binding.Key)
	settle(ctx, engine, store, "instance", instance.Key)
	check(store.Close())
}

// settle does what is due until nothing is to be done for a row, and prints its state.
func settle(ctx context.Context, engine *platform.Engine, store platform.Store, what string, key platform.Key) {
	row, err := store.Read(ctx, key)
	for ; err == nil && !row.Rests(); row, err = store.Read(ctx, key) {
		time.Sleep(time.Until(row.Due)) // the store's time is that of this machine
		check(engine.RunOnce(ctx))
	}
	check(err)
	fmt.Printf("%s: %s\n", what, row.State)
}

func check(err error) {
	if err != nil {
		log.Fatal(err)
	}
}

type observer struct{ platform.Silent }

func (observer) OnFailure(it platform.Failure) { log.Printf("%s %v: %v", it.Event, it.Key, it.Err) }
