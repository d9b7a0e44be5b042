package main

import (
	"bytes"
	"context"
	"encoding/json"
	"fmt"
	"io"
	"os"
	"path/filepath"
	"strings"
	"testing"
	"time"

	"github.com/mattn/go-sqlite3"
	"github.com/spf13/cobra"

	"pippinterm/internal/diff"
	"pippinterm/osb"
	"pippinterm/platform"
)

// newRows is a store with so many instances.
func newRows(t *testing.T, number int) (store string) {
	t.Helper()
	store = newStore(t)
	over(t, store, func(ctx context.Context, in platform.Store) error {
		orders := platform.NewOrders(in, nil)
		for n := 0; n < number; n++ {
			if _, err := orders.Create(ctx, platform.NewInstance{Plan: "small"}); err != nil {
				return err
			}
		}
		return nil
	})
	return store
}

// --latest lists the same rows in the opposite order.
func TestLatest(t *testing.T) {
	store := newRows(t, readAtOnce+20)
	linesOf := func(arguments ...string) []string {
		got := call(t, append([]string{"--store", store, "list"}, arguments...)...)
		return strings.Split(strings.TrimSpace(got.out), "\n")
	}
	first, latest := linesOf(), linesOf("--latest")
	diff.Equal(t, len(first), readAtOnce+20, "lines")
	for left, right := 0, len(latest)-1; left < right; left, right = left+1, right-1 {
		latest[left], latest[right] = latest[right], latest[left]
	}
	diff.Check(t, latest, first, "the lines from the end")
}

// A moving is a store in which rows change to other states after each call that reads some.
type moving struct {
	platform.Store
	move func()
}

func (m moving) List(ctx context.Context, filter platform.Filter) ([]platform.Entry, error) {
	defer m.move()
	return m.Store.List(ctx, filter)
}

func (m moving) Positions(ctx context.Context, filter platform.Filter) ([]platform.Position, error) {
	defer m.move()
	return m.Store.Positions(ctx, filter)
}

func (m moving) ReadAll(ctx context.Context, keys []platform.Key) ([]platform.Entry, error) {
	defer m.move()
	return m.Store.ReadAll(ctx, keys)
}

// While instances change to other states, before and behind the position up to which they are listed, each is listed
// once.
func TestListWhileRowsMove(t *testing.T) {
	const count = 2*readAtOnce + 20
	over(t, newRows(t, count), func(ctx context.Context, in platform.Store) error {
		rows, err := in.List(ctx, platform.Filter{})
		if err != nil {
			return err
		}
		moved := 0
		store := moving{in, func() {
			for n := 0; n < 20; n++ {
				moved++
				err = in.Change(ctx, rows[moved*37%count].Key,
					func(now time.Time, snapshot platform.Snapshot) (*platform.Change, error) {
						snapshot.Entry.Since = now
						snapshot.Entry.State = []platform.State{platform.Abandoned, platform.Withdrawn}[moved%2]
						return &platform.Change{Entry: snapshot.Entry}, nil
					})
				diff.NoError(t, err, "")
			}
		}}
		var out bytes.Buffer
		if err := (&listing{}).listTo(ctx, store, &out); err != nil {
			return err
		}
		listed := map[string]int{}
		for _, line := range strings.Split(strings.TrimSpace(out.String()), "\n") {
			id, _, _ := strings.Cut(line, "\t")
			listed[id]++
		}
		for _, row := range rows {
			diff.Equal(t, listed[row.Names.Instance], 1, "the instance %s", row.Names.Instance)
		}
		if len(listed) != count || moved == 0 {
			t.Errorf("got %d instances, %d moved, want %d and at least one moved", len(listed), moved, count)
		}
		return nil
	})
}

// A reader of the list that has seen enough is no failure.
func TestListWithoutReader(t *testing.T) {
	command := osbPlatform(nil, "--store", newRows(t, 3), "list")
	reader, writer, err := os.Pipe()
	check(t, err)
	_ = reader.Close()
	var failed bytes.Buffer
	command.Stdout, command.Stderr = writer, &failed
	diff.NoError(t, command.Run(), "")
	diff.Equal(t, failed.String(), "", "the messages")
	_ = writer.Close()
}

// A store whose name is misspelt isn't created: the answer would be that there is nothing.
func TestMissingStore(t *testing.T) {
	for _, arguments := range ofExistingStores(t) {
		store := filepath.Join(t.TempDir(), "folder", "store")
		wantLines(t, store, []line{{arguments, 78, ``, noStore}})
		diff.ErrorIs(t, diff.Err(os.Stat(filepath.Dir(store))), os.ErrNotExist, "%s", arguments)
	}
}

// noStore is what a command says whose store doesn't exist.
const noStore = `osb-platform: there is no store [^ ]*: name the right one with --store or in OSB_PLATFORM_STORE\. ` +
	`'osb-platform broker add' and 'osb-platform run' create a new one`

// ofExistingStores are the commands that create no store.
func ofExistingStores(t *testing.T) []string {
	key := newKey(t)
	return []string{
		"list", "show one", "create --plan small", "bind one", "remove one", "unbind one/two", "retry one",
		"abandon one --because it", "credentials one/two", "broker list", "broker show shop",
		"broker set shop --hold 1", "broker drop shop", "rekey --key-file " + key + " --new-key-file " + newKey(t),
	}
}

// An empty file is no store either, and stays empty.
func TestEmptyFile(t *testing.T) {
	store := filepath.Join(t.TempDir(), "store")
	write(t, store, "")
	for _, arguments := range ofExistingStores(t) {
		wantLines(t, store, []line{{arguments, 78, ``, noStore}})
	}
	diff.Equal(t, diff.Value(os.Stat(store))(t).Size(), 0, "the length of the file")
}

// The head, the rows and the help of `list` have the same columns.
func TestColumns(t *testing.T) {
	e := entryWithBroker{Entry: platform.Entry{
		Order:   platform.Order{Names: platform.Names{Instance: "one", Service: "s", Plan: "p"}, Broker: "shop"},
		State:   platform.Ready,
		Because: "why",
	}}
	for withReasons, want := range map[bool]string{
		false: "one\tready\t0001-01-01T00:00:00Z\ts\tp\tshop", true: "one\tready\t0001-01-01T00:00:00Z\ts\tp\tshop\twhy",
	} {
		t.Run(fmt.Sprint("with reasons ", withReasons), func(t *testing.T) {
			var head, row, plain strings.Builder
			shown := shownColumns(withReasons)
			check(t, printHead(&head, shown))
			check(t, printRow(&row, shown, e, true))
			check(t, printRow(&plain, shown, e, false))
			diff.Equal(t, plain.String(), want+"\n", "")
			names, cells := strings.Fields(head.String()), strings.Split(want, "\t")
			if len(names) != len(cells) || withReasons && names[len(names)-1] != "reason" {
				t.Errorf("got the names %q and the cells %q, want one for each", names, cells)
			}
			for at, cell := range cells { // on a terminal, each cell is below its name
				diff.Equal(t, strings.Index(head.String(), names[at]), strings.Index(row.String(), cell),
					"%s, %q, %q", names[at], head.String(), row.String())
			}
		})
	}
	help := call(t, "list", "--help").out
	diff.Contains(t, help, "The columns are "+namesOfColumns()+".\n", "")
	diff.Equal(t, namesOfColumns(), "id, state, since, service, plan, broker, and with --reasons reason", "")
}

func TestPrintable(t *testing.T) {
	for text, want := range map[string]string{
		"": "", "plain text": "plain text", "größe": "größe", "a\tb": `"a\tb"`, "a\nb": `"a\nb"`,
		"\x1b[2J":  `"\x1b[2J"`,
		"a\u202eb": `"a\u202eb"`, "a\u0085b": `"a\u0085b"`, "\xff": `"\xff"`, "a\u200bb": `"a\u200bb"`,
	} {
		t.Run(text, func(t *testing.T) {
			diff.Equal(t, printable(text), want, "")
		})
	}
}

// JSON in ASCII means the same, and has no character that controls a terminal.
func TestASCIIJSON(t *testing.T) {
	for _, text := range []string{`{"a": "größe \u001b 😀 ` + "\u007f\u0085\u202e" + `"}`, `[1e400, "\ud83d"]`} {
		got := asciiJSON([]byte(text))
		for _, line := range got {
			if line >= 0x7f {
				t.Errorf("got %q, want only ASCII", got)
			}
		}
		var one, other any
		if json.Unmarshal([]byte(text), &one) == nil && (json.Unmarshal(got, &other) != nil ||
			one.(map[string]any)["a"] != other.(map[string]any)["a"]) {
			t.Errorf("got %q, want the value of %s", got, text)
		}
	}
}

func TestMoment(t *testing.T) {
	for want, at := range map[string]time.Time{
		"2023-11-14T22:13:20Z": time.Unix(1_700_000_000, 5).In(time.FixedZone("east", 3600)),
		"9999-12-31T23:59:59Z": time.Unix(1<<40, 0),
	} {
		t.Run(want, func(t *testing.T) {
			diff.Equal(t, moment(at), want, "")
		})
	}
}

func TestIsTerminal(t *testing.T) {
	file := diff.Value(os.Open(os.DevNull))(t)
	defer file.Close()
	diff.Equal(t, isTerminal(file) || isTerminal(nil), false, "isTerminal of what is no terminal")
}

// A reason is one short sentence, whatever was lost by the way.
func TestReasons(t *testing.T) {
	unsure := "status 401: " + osb.ErrNoAnswer.Error()
	for _, test := range []struct {
		of   platform.Reason
		want string
	}{
		{platform.Reason{}, ""},
		{platform.Reason{Kind: "provision", Status: 503, Error: "Odd", Description: "no \x1b place"},
			`provision 503 Odd "no \x1b place"`},
		{platform.Reason{Kind: "provision", Status: 401, Lost: unsure},
			"provision 401: the broker rejects the user or the password"},
		{platform.Reason{Kind: "bind", Status: 401, Description: "bad \x1b password", Lost: unsure},
			`bind 401: the broker rejects the user or the password: "bad \x1b password"`},
		{platform.Reason{Kind: "unbind", Status: 403, Error: "Forbidden"},
			"unbind 403: the broker doesn't let this user in: Forbidden"},
		{platform.Reason{Kind: "poll", Status: 404, Lost: "status 404: " + osb.ErrNoAnswer.Error()},
			"poll 404 the response isn't surely the broker's: a timeout takes its place"},
		{platform.Reason{Kind: "poll", Lost: "the time of the exchange is over"},
			"poll the time of the exchange is over"},
		{platform.Reason{Kind: "catalogue", Status: 401, Lost: "the broker shop rejects the user or the password (401)"},
			"the broker shop rejects the user or the password (401)"},
	} {
		t.Run(test.want, func(t *testing.T) {
			diff.Equal(t, textOf(test.of), test.want, "%+v", test.of)
		})
	}
}

// The reason of a broker counts for a row that says nothing itself, while something is to be sent for it.
func TestReasonOfBroker(t *testing.T) {
	away := platform.Broker{Name: "shop", Reason: platform.Reason{Kind: "catalogue", Lost: "connection \x1b refused"}}
	due := platform.Entry{State: platform.Ordered, Due: time.Unix(1, 0)}
	polled, ready := due, platform.Entry{State: platform.Ready}
	polled.Last = platform.Reason{Kind: "poll", Status: 200}
	for _, test := range []struct {
		of          entryWithBroker
		want, facts string
	}{
		{entryWithBroker{Entry: due, broker: away}, `broker: "connection \x1b refused"`, `"connection \x1b refused"`},
		{entryWithBroker{Entry: polled, broker: away}, "poll 200", `"connection \x1b refused"`},
		{entryWithBroker{Entry: due}, "", ""},
		{entryWithBroker{Entry: ready, broker: away}, "", ""},
	} {
		t.Run(string(test.of.State)+" "+test.want, func(t *testing.T) {
			diff.Equal(t, test.of.reason(), test.want, "%s", test.of.State)
			diff.Equal(t, textOf(test.of.brokerReason()), test.facts, "%s", test.of.State)
		})
	}
}

// The first 401 of a broker is in the list, in `--wait` and in the list of brokers.
func TestRejectedPassword(t *testing.T) {
	s, store := newTestBroker(t), newStore(t)
	wantLines(t, store, []line{{"broker drop shop", 0, ``, ``}})
	p := startAt(t, s, store, "--first-pace", "0.01", "--hold", "0")
	s.setPassword("another")
	wantLines(t, store, []line{
		{"create --plan at-once --id one --wait=2", 4, `one`,
			`ordered one\nosb-platform: one is still cleaning: provision 401: the broker rejects the user or the password.*`},
		{"list --reasons", 0, "one\tcleaning\t.*\tprovision 401: the broker rejects the user or the password.*", ``},
		{"create --plan at-once --id two --wait=0.1", 4, `two`,
			`ordered two\nosb-platform: two is still ordered: the broker default rejects the user or the password \(401\).*`},
		{"broker list", 0, "default\t.*\tthe broker default rejects the user or the password \\(401\\).*", ``},
		{"list --reasons --state ordered", 0,
			"two\tordered\t.*\tbroker: the broker default rejects the user or the password \\(401\\).*", ``},
		{"list --json --state ordered", 0,
			`{.*"broker_reason":{"at":"[^"]*","kind":"catalogue","status":401,"lost":"the broker .*`, ``},
		{"show two", 0,
			"id\ttwo\nstate\tordered\n.*\nbroker's reason\t" + since + " the broker default rejects the .*", ``},
		{"show two --json", 0, `{.*"broker_reason":{.*`, ``},
	})
	s.setPassword("secret")
	p.Event("broker_reached")
	wantLines(t, store, []line{
		{"remove one --wait=60", 0, ``, `one is gone`},
		{"show one", 0, ".*\nfailure\t.* provision 401: .*", ``}, // the order has one try
		{"create --plan at-once --id three --wait=60", 0, `three`, `ordered three`},
		{"list --reasons --state ready", 0, "(t[^\t]*\tready\t[^\n]*\tprovision 201\n?){2}", ``},
	})
	p.stop()
}

// A row whose record can't be read is listed and shown with the reason, and hides no other row. A command that waits
// for it fails.
func TestUnreadableRow(t *testing.T) {
	store := newStore(t)
	over(t, store, func(ctx context.Context, in platform.Store) error {
		orders := platform.NewOrders(in, nil)
		for _, id := range []string{"one", "two", "three"} {
			if _, err := orders.Create(ctx, platform.NewInstance{Plan: "small", ID: id}); err != nil {
				return err
			}
			time.Sleep(2 * time.Millisecond) // a list orders them by the millisecond
		}
		return nil
	})
	spoil(t, store, "UPDATE osb_instances SET record = '{}' WHERE instance_name = 'two'")
	const why = "its record can't be read: .*"
	wantLines(t, store, []line{
		{"list", 0, "one\t.*\ntwo\tordered\t.*\nthree\t.*", "1 record can't be read. .*--reasons' shows why."},
		{"list --reasons", 0, "one\t[^\n]*\t\ntwo\t[^\n]*\t" + why + "\nthree\t.*", ".*"},
		{"list --state ordered --json", 0, `.*"id":"two"[^\n]*"unreadable":"[^\n]*record[^\n]*\n.*`, ".*"},
		{"show two", 0, "id\ttwo\nstate\tordered\n.*\nrecord\t" + why, ``},
		{"show two --json", 0, `.*"unreadable":".*`, ``},
		{"remove two --wait", 70, ``, ".*record.*"},
	})
	over(t, store, func(ctx context.Context, in platform.Store) error {
		of, err := readEntry(ctx, in, "two")
		if err != nil {
			return err
		}
		command, goesOn := &cobra.Command{}, func(platform.Entry) (bool, bool) { return false, false }
		command.SetErr(io.Discard)
		ctx, cancel := context.WithTimeout(ctx, time.Minute)
		defer cancel()
		_, err = (&waitFlag{}).wait(ctx, command, session{store: in}, of, false, goesOn)
		diff.Error(t, err, "the wait")
		diff.Contains(t, err.Error(), "two: its record can't be read: ", "the wait")
		return nil
	})
	diff.Lacks(t, call(t, "--store", store, "show", "one", "--json").out, "unreadable", "the first")
}

// spoil executes a statement in the file of a store.
func spoil(t *testing.T, store, statement string) {
	t.Helper()
	made := diff.Value((&sqlite3.SQLiteDriver{}).Open("file:" + store))(t)
	defer made.Close()
	done := diff.Value(made.(*sqlite3.SQLiteConn).Exec(statement, nil))(t)
	diff.Equal(t, diff.Value(done.RowsAffected())(t), 1, "rows spoilt")
}
