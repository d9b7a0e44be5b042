package storetest

import (
	"encoding/json"
	"errors"
	"fmt"
	"sync"
	"testing"
	"time"

	"pippinterm/internal/diff"
	"pippinterm/platform"
)

func testBrokers(t *testing.T, open opener) {
	first, second := openStore(t, open), openStore(t, open)
	hold, pace := 300*time.Second, 1500*time.Millisecond
	zero := time.Duration(0)
	all := []platform.Broker{
		{
			Name: "a-1", URL: "https://broker.example/postgres?'",
			User: "platform \"é", Password: []byte{1, 0, 255, '\''},
			Settings:  platform.Settings{Hold: &zero, FirstPace: &pace, LongestPace: &hold, LongestPoll: &hold},
			Catalogue: json.RawMessage(`{ "services": ["\u0000", 1.0 ]}`), CatalogueAt: past(1),
			Reason: platform.Reason{At: past(2), Kind: "catalog", Status: 500, Error: "e", Description: "d", Lost: "l"},
		},
		{Name: "b", URL: "http://b", PasswordFile: "/run/secret's", Store: "8d5f7a3e-0000-4000-8000-000000000001"},
		{Name: "c", URL: "http://c", User: "c"},
	}
	for _, n := range []int{1, 0, 2} {
		check(t, first.AddBroker(background, all[n]))
	}
	wantBrokers(t, second, all...)
	other := platform.Broker{Name: "b", URL: "http://other"}
	diff.ErrorIs(t, second.AddBroker(background, other), platform.ErrUsed, "the name of a broker")
	err := second.ChangeBroker(background, "d", func(platform.Broker) (*platform.Broker, error) {
		t.Error("a broker that isn't there: got a change, want none")
		return nil, nil
	})
	diff.ErrorIs(t, err, platform.ErrUnknown, "a name that no broker has")
	wantBrokers(t, first, all...)
	all[0], all[1] = platform.Broker{Name: "a-1", URL: "http://a"}, all[0]
	all[1].Name = "b"
	for n, broker := range all[:2] {
		it := broker
		it.Name = []string{"a-1", "an order would lose it"}[n] // the name stays
		name := all[n].Name
		set := func(platform.Broker) (*platform.Broker, error) { return &it, nil }
		check(t, second.ChangeBroker(background, name, set))
	}
	wantBrokers(t, first, all...)
	check(t, first.DropBroker(background, "b"))
	diff.ErrorIs(t, first.DropBroker(background, "b"), platform.ErrUnknown, "a broker that was dropped")
	wantBrokers(t, second, all[0], all[2])
}

func wantBrokers(t *testing.T, store platform.Store, want ...platform.Broker) {
	t.Helper()
	got := diff.Value(store.Brokers(background))(t)
	diff.Len(t, got, len(want), "Brokers")
	for n := range want {
		diff.Equal(t, textOf(t, got[n]), textOf(t, want[n]), "broker %d", n)
	}
}

// textOf is a text with all of a broker. Times count to the millisecond.
func textOf(t *testing.T, broker platform.Broker) string {
	t.Helper()
	broker.CatalogueAt, broker.Reason.At = milliseconds(broker.CatalogueAt), milliseconds(broker.Reason.At)
	catalogue := string(broker.Catalogue)
	broker.Catalogue = nil
	text := diff.Value(json.Marshal(broker))(t)
	return string(text) + catalogue
}

// A broker of which something was ever ordered stays.
func testBrokerWithOrders(t *testing.T, open opener) {
	store := openStore(t, open)
	insert(t, store, in(t, instance(1), platform.Gone)) // of the broker one
	for n, name := range []string{"one", "two", "three"} {
		addBroker(t, store, name)
		if n == 1 {
			entry := order(binding(2, 1))
			entry.Broker = name
			insert(t, store, entry)
		}
	}
	for _, name := range []string{"one", "two"} {
		diff.ErrorIs(t, store.DropBroker(background, name), platform.ErrUsed, "%s", name)
	}
	diff.NoError(t, store.DropBroker(background, "three"), "three")
	diff.Equal(t, len(diff.Value(store.Brokers(background))(t)), 2, "Brokers")
}

// An order isn't inserted without its broker, whether that was dropped or never was.
func testUnknownBroker(t *testing.T, open opener) {
	first, second := openStore(t, open), openStore(t, open)
	insert(t, first, order(instance(1)))
	addBroker(t, first, "two")
	check(t, second.DropBroker(background, "two"))
	for _, name := range []string{"two", "three"} {
		for _, key := range []platform.Key{instance(2), binding(1, 1)} {
			entry := order(key)
			entry.Broker = name
			diff.ErrorIs(t, first.Insert(background, entry, accept), platform.ErrUnknown, "%v of %s", key, name)
			diff.ErrorIs(t, diff.Err(first.Read(background, key)), platform.ErrUnknown, "Read of %v of %s", key, name)
		}
	}
}

// A broker is dropped while an order of it is inserted: the order is written, and the broker stays. The other way
// round, the broker is dropped, and the order is rejected (testUnknownBroker, testInsertsAndDrops).
func testInsertBesideDrop(t *testing.T, open opener) {
	first, second := openStore(t, open), openStore(t, open)
	insert(t, first, order(instance(1)))
	for n, key := range []platform.Key{instance(2), binding(2, 1)} {
		entry := order(key)
		entry.Broker = fmt.Sprint("new-", n)
		addBroker(t, first, entry.Broker)
		insertBesideDrop(t, first, second, entry)
		wantNoOrphans(t, second)
	}
}

func insertBesideDrop(t *testing.T, first, second platform.Store, entry platform.Entry) {
	t.Helper()
	gate, inserted, dropped := NewGate(), make(chan error, 1), make(chan error, 1)
	defer gate.Open()
	go func() {
		inserted <- first.Insert(background, entry, func(platform.Snapshot) error {
			gate.Pass()
			return nil
		})
	}()
	gate.Await(t, inserted)
	go func() { dropped <- second.DropBroker(background, entry.Broker) }()
	select {
	case err := <-dropped:
		dropped <- err // it didn't wait
	case <-time.After(soon):
	}
	gate.Open()
	diff.NoError(t, <-inserted, "Insert of %v", entry.Key)
	diff.ErrorIs(t, <-dropped, platform.ErrUsed, "DropBroker with %v", entry.Key)
}

// wantNoOrphans fails if there is an order without its broker.
func wantNoOrphans(t *testing.T, store platform.Store) {
	t.Helper()
	all := diff.Value(store.Brokers(background))(t)
	known := map[string]bool{}
	for _, broker := range all {
		known[broker.Name] = true
	}
	rows := diff.Value(store.List(background, platform.Filter{}))(t)
	for _, row := range rows {
		diff.Equal(t, known[row.Broker], true, "the broker %s of %v is there", row.Broker, row.Key)
	}
}

// Of an order and of the end of its broker, which happen at once, one succeeds.
func testInsertsAndDrops(t *testing.T, open opener) {
	first, second := openStore(t, open), openStore(t, open)
	const rounds = 30
	for n := 0; n < rounds; n++ {
		entry := order(instance(n))
		entry.Broker = fmt.Sprint("b-", n)
		addBroker(t, first, entry.Broker)
		begin, inserted := make(chan struct{}), make(chan error, 1)
		go func() {
			<-begin
			inserted <- first.Insert(background, entry, accept)
		}()
		close(begin)
		dropped := second.DropBroker(background, entry.Broker)
		switch err := <-inserted; {
		case err == nil && errors.Is(dropped, platform.ErrUsed):
		case errors.Is(err, platform.ErrUnknown) && dropped == nil:
		default:
			t.Errorf("got Insert %v and DropBroker %v, want one of them to fail", err, dropped)
		}
	}
	wantNoOrphans(t, first)
}

// A change that fails, or that is none, writes nothing.
func testFailingBroker(t *testing.T, open opener) {
	store := openStore(t, open)
	addBroker(t, store, "one")
	for _, want := range []error{errWrong, nil} {
		err := store.ChangeBroker(background, "one", func(broker platform.Broker) (*platform.Broker, error) {
			broker.URL = "http://other"
			if want == nil {
				return nil, nil
			}
			return &broker, want
		})
		diff.ErrorIs(t, err, want, "ChangeBroker")
		wantBrokers(t, store, brokerOf("one"))
	}
}

// Two that change a broker at once lose nothing of each other.
func testBrokerCounter(t *testing.T, open opener) {
	stores := []platform.Store{openStore(t, open), openStore(t, open)}
	addBroker(t, stores[0], "one")
	const goroutines, each = 6, 10
	var all sync.WaitGroup
	for n := 0; n < goroutines; n++ {
		all.Add(1)
		go func(store platform.Store, isUser bool) {
			defer all.Done()
			for n := 0; n < each; n++ {
				diff.NoError(t, store.ChangeBroker(background, "one", counting(isUser)), "ChangeBroker")
			}
		}(stores[n%2], n%3 == 0)
	}
	all.Wait()
	got := diff.Value(stores[1].Brokers(background))(t)
	users, statuses := len(got[0].User), got[0].Reason.Status
	diff.Equal(t, [2]int{users, statuses}, [2]int{2 * each, 4 * each}, "users and statuses")
}

// counting is a change of a broker: a part of it grows by one.
func counting(isUser bool) func(platform.Broker) (*platform.Broker, error) {
	return func(broker platform.Broker) (*platform.Broker, error) {
		if isUser {
			broker.User += "u"
		} else {
			broker.Reason.Status++
		}
		return &broker, nil
	}
}
