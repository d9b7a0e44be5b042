package client

import (
	"context"
	"os"
	"path/filepath"
	"strings"
	"testing"
	"time"

	"pippinterm/internal/diff"
	"pippinterm/platform"
	"pippinterm/platform/sqlite"
	"pippinterm/platform/vault"
)

// A sealed password is opened under the name, the URL and the user of its broker, and under no others.
func TestSealedPassword(t *testing.T) {
	safe := diff.Value(vault.New([]byte(strings.Repeat("k", vault.ShortestKey))))(t)
	broker := platform.Broker{Name: "postgres", URL: "https://one.example", User: "platform", PasswordFile: "nowhere"}
	broker.Password = diff.Value(safe.Seal([]byte(secret), platform.PasswordContext(broker)))(t)
	passwords := NewPasswords(safe, nil)
	diff.Equal(t, diff.Value(passwords.Of(broker))(t), secret, "")
	for what, change := range map[string]func(*platform.Broker){
		"another name": func(b *platform.Broker) { b.Name = "another" },
		"another URL":  func(b *platform.Broker) { b.URL = "https://two.example" },
		"another user": func(b *platform.Broker) { b.User = "platfor" },
		"the user in the URL": func(b *platform.Broker) {
			b.URL, b.User = b.URL+" 8:platform", ""
		},
		"as version 0.3 did": func(b *platform.Broker) {
			b.Password = diff.Value(safe.Seal([]byte(secret), "broker postgres"))(t)
		},
	} {
		t.Run(what, func(t *testing.T) {
			changed := broker
			change(&changed)
			got, err := passwords.Of(changed)
			if err == nil || got != "" || !strings.Contains(err.Error(), "broker set "+changed.Name+" --store-password") {
				t.Errorf("got %q, %v, want an error that says what to do", got, err)
			}
		})
	}
	if got, err := NewPasswords(nil, nil).Of(broker); err == nil || got != "" {
		t.Errorf("got %q, %v, want an error and no password", got, err)
	}
	if got, err := passwords.Of(platform.Broker{Name: "postgres"}); err == nil || got != "" {
		t.Errorf("got %q, %v, want an error and no password", got, err)
	}
}

// What platform.Orders seals is opened here.
func TestPasswordOfOrders(t *testing.T) {
	safe := diff.Value(vault.New([]byte(strings.Repeat("k", vault.ShortestKey))))(t)
	ctx := context.Background()
	store := diff.Value(sqlite.Open(ctx, filepath.Join(t.TempDir(), "store")))(t)
	defer store.Close()
	orders := platform.NewOrders(store, safe)
	shop := platform.Broker{Name: "shop", URL: "https://shop.example", User: "platform"}
	check(t, orders.AddBroker(ctx, shop, []byte(secret)))
	for _, want := range []string{secret, "another"} {
		brokers := diff.Value(store.Brokers(ctx))(t)
		diff.Len(t, brokers, 1, "")
		diff.Equal(t, diff.Value(NewPasswords(safe, nil).Of(brokers[0]))(t), want, "")
		nothing := func(*platform.Broker) error { return nil }
		check(t, orders.SetBroker(ctx, "shop", nothing, []byte("another")))
	}
}

// A file is read again when it changes, however soon. If it can't be read any more, its last password counts.
func TestPasswordFile(t *testing.T) {
	name := filepath.Join(t.TempDir(), "password")
	var warnings []string
	passwords := NewPasswords(nil, func(it string) { warnings = append(warnings, it) })
	broker := platform.Broker{Name: "postgres", User: "platform", PasswordFile: name}
	if got, err := passwords.Of(broker); !os.IsNotExist(err) || got != "" {
		t.Errorf("got %q, %v, want the error of a file that doesn't exist", got, err)
	}
	put := func(text string) func() error {
		return func() error { return os.WriteFile(name, []byte(text), 0o600) }
	}
	for _, step := range []struct {
		what, wanted string
		do           func() error
		warnings     int
	}{
		{"written", "one", put("one\n"), 0},
		{"written again, in as many bytes", "two", put("two\n"), 0},
		{"the same", "two", func() error { return nil }, 0},
		{"empty, while it is replaced", "two", func() error { return os.Truncate(name, 0) }, 1},
		{"still empty", "two", func() error { return nil }, 1},
		{"replaced", "three", func() error {
			if err := os.WriteFile(name+".new", []byte("three"), 0o600); err != nil {
				return err
			}
			return os.Rename(name+".new", name)
		}, 1},
		{"removed", "three", func() error { return os.Remove(name) }, 2},
		{"two lines", "three", put("four\nfive\n"), 3},
		{"readable by all", "four", func() error {
			if err := os.WriteFile(name, []byte("four"), 0o600); err != nil {
				return err
			}
			return os.Chmod(name, 0o644)
		}, 4},
		{"still readable by all", "four", func() error { return nil }, 4},
	} {
		check(t, step.do())
		diff.Equal(t, diff.Value(passwords.Of(broker))(t), step.wanted, "%s", step.what)
		diff.Equal(t, len(warnings), step.warnings, "%s", step.what)
	}
	for _, warning := range warnings {
		diff.Lacks(t, warning, "four", "the warning")
		diff.Lacks(t, warning, "three", "the warning")
	}
}

// A file that hasn't changed for a while isn't read for each request, and is read again once it changes.
func TestSettledPasswordFile(t *testing.T) {
	name := filepath.Join(t.TempDir(), "password")
	passwords := NewPasswords(nil, nil)
	put := func(text string, changed time.Time) {
		t.Helper()
		check(t, os.WriteFile(name, []byte(text), 0o600))
		check(t, os.Chtimes(name, changed, changed))
	}
	hour, soon := time.Now().Add(-time.Hour), time.Now().Add(time.Minute)
	for _, row := range []struct {
		text    string
		changed time.Time
		wanted  string
	}{
		{"one", hour, "one"},
		{"two", hour, "one"}, // nothing of the file shows that it has changed, so it wasn't read
		{"two", hour.Add(time.Nanosecond), "two"},
		{"three", hour.Add(time.Nanosecond), "three"}, // its length shows it
		{"four", soon, "four"},
		{"five", soon, "five"}, // it may have changed since, within what the time of change can distinguish
	} {
		put(row.text, row.changed)
		got := diff.Value(passwords.Of(platform.Broker{Name: "postgres", PasswordFile: name}))(t)
		diff.Equal(t, got, row.wanted, "%s", row.text)
	}
	put("six", hour)
	diff.Equal(t, diff.Value(passwords.Of(platform.Broker{Name: "postgres", PasswordFile: name}))(t), "six", "")
	file := name
	name += ".new"
	put("ten", hour)
	check(t, os.Rename(name, file)) // another file, with the same length and time
	if got, err := passwords.Of(platform.Broker{Name: "postgres", PasswordFile: file}); got != "ten" || err != nil {
		t.Errorf("once it is replaced: got %q, %v, want \"ten\"", got, err)
	}
}

// The file with the key is no password, under whatever name.
func TestKeyIsNoPassword(t *testing.T) {
	key, link := filepath.Join(t.TempDir(), "key"), filepath.Join(t.TempDir(), "link")
	check(t, os.WriteFile(key, []byte(strings.Repeat("k", vault.ShortestKey)), 0o600))
	check(t, os.Link(key, link))
	passwords := NewPasswords(nil, nil, filepath.Join(t.TempDir(), "nowhere"), key)
	for _, file := range []string{key, link, filepath.Join(filepath.Dir(key), ".", "key")} {
		got, err := passwords.Of(platform.Broker{Name: "b", PasswordFile: file})
		if got != "" || err == nil || !strings.Contains(err.Error(), "has the key of the store") {
			t.Errorf("%s: got %q, %v, want an error", file, got, err)
		}
	}
}
