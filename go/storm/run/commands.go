package run

import (
	"bytes"
	"context"
	"encoding/json"
	"errors"
	"fmt"
	"math/rand"
	"os/exec"
	"strings"
	"syscall"
	"time"

	"pippinterm/internal/child"
	"pippinterm/internal/cli"
	"pippinterm/platform"
	"pippinterm/storm/fault"
	"pippinterm/storm/report"
	"pippinterm/storm/run/goods"
)

const (
	killedCommands = 0.15            // the share of the commands that are killed, if they have crash points
	longestAway    = 4 * time.Minute // longer than PostgreSQL takes to start again
	awayEach       = 200 * time.Millisecond
	commandsAtOnce = 8
	statusRejected = 1 // of a command that has changed nothing
)

// The crash points of the commands.
const (
	orderNext    = "order-next"
	orderWritten = "order-written"
)

// commands are the platform of a storm as an operator uses it: each order is a command of osb-platform, which may be
// killed. Any number of goroutines use it.
type commands struct {
	*notedBook           // reads the store
	line        []string // the program with the options of its store
	journal     []string // the options of a journal, for the commands whose changes are events of osb-audit's model
	environment []string
	slots       chan struct{}
	triesOf     func(Key) int // how many ids an order of an instance, or of a binding of it, may use up

	guard
	chance  *rand.Rand
	isKill  bool           // commands are killed at their crash points
	visited map[string]int // how often a command was killed at each
	deeds   deeds
	wrong   []string
}

// deeds are what the operator has ordered, by the keys. Each must be seen in the records at the end.
type deeds struct{ ordered, removed, abandoned map[Key]bool }

var _ Orders = (*commands)(nil)

func newCommands(book *notedBook, chance *rand.Rand, line, journal, environment []string) *commands {
	return &commands{
		notedBook: book, line: line, journal: journal, environment: environment, chance: chance,
		slots: make(chan struct{}, commandsAtOnce), visited: map[string]int{}, triesOf: func(Key) int { return 1 },
		deeds: deeds{map[Key]bool{}, map[Key]bool{}, map[Key]bool{}},
	}
}

// ofKey is how a command names an instance or a binding.
func ofKey(key Key) string {
	if key.Binding == "" {
		return key.Instance
	}
	return key.Instance + "/" + key.Binding
}

// Create orders an instance.
func (c *commands) Create(ctx context.Context, key Key) error {
	return c.order(ctx, key, "create", "--id", key.Instance, "--service", goods.Service, "--plan", c.plan(key),
		"--tries", fmt.Sprint(c.triesOf(key)))
}

// Bind orders a binding.
func (c *commands) Bind(ctx context.Context, key Key) error {
	return c.order(ctx, key, "bind", key.Instance, "--id", key.Binding, "--parameters", `{"role": "reader"}`,
		"--tries", fmt.Sprint(c.triesOf(key)))
}

// order orders something. It is wrong if the record isn't what the command has reported.
func (c *commands) order(ctx context.Context, key Key, words ...string) error {
	ended, record, err := c.callAndRead(ctx, key, words...)
	if err != nil {
		return err
	}
	wasWritten := ended.killedAt == orderWritten
	switch {
	case wasWritten && ended.status == cli.StatusDone:
		c.note("an id was used twice: " + strings.Join(words, " "))
	case (wasWritten || ended.status == cli.StatusDone) && !record.Known:
		c.note("an order is lost: " + strings.Join(words, " "))
	case ended.status != cli.StatusDone && !wasWritten && record.Known && !ended.wasAway:
		c.note(fmt.Sprintf("an order was rejected, and is written: %s: %s", strings.Join(words, " "), ended.said))
	}
	if !record.Known {
		return errors.New(strings.TrimSpace(ended.said))
	}
	c.hold(func() { c.deeds.ordered[key] = true })
	return nil
}

// callAndRead runs a command about a key, and then reads the record, also if the store is away for a while.
func (c *commands) callAndRead(ctx context.Context, key Key, words ...string) (ended endedCommand, record Record, err error) {
	if ended, err = c.call(ctx, words...); err != nil {
		return ended, record, err
	}
	for until := time.Now().Add(longestAway); ; {
		if record, err = c.Record(ctx, key); err == nil || time.Now().After(until) || !fault.Sleep(ctx, awayEach) {
			return ended, record, err
		}
	}
}

// Remove has an instance or a binding removed.
func (c *commands) Remove(ctx context.Context, key Key, withBindings bool) error {
	words := []string{"remove", ofKey(key)}
	switch {
	case key.Binding != "":
		words[0] = "unbind"
	case withBindings:
		words = append(words, "--bindings")
	}
	return c.change(ctx, func() { c.deeds.removed[key] = true }, words...)
}

// Retry has what is due later done at once.
func (c *commands) Retry(ctx context.Context, key Key) error {
	return c.change(ctx, func() {}, "retry", ofKey(key))
}

// Abandon gives a record up.
func (c *commands) Abandon(ctx context.Context, key Key) error {
	ended, record, err := c.callAndRead(ctx, key, "abandon", ofKey(key), "--because", "the storm")
	if err != nil {
		return err
	}
	isAbandoned := record.State == platform.Abandoned
	if (ended.status == cli.StatusDone || ended.killedAt == orderWritten) && !isAbandoned {
		c.note(fmt.Sprintf("%s was abandoned, and is %s", ofKey(key), record.State))
	}
	if !isAbandoned {
		return errors.New(strings.TrimSpace(ended.said))
	}
	c.hold(func() { c.deeds.abandoned[key] = true })
	return nil
}

// change runs a command. done is called if it has succeeded.
func (c *commands) change(ctx context.Context, done func(), words ...string) error {
	ended, err := c.call(ctx, words...)
	if err != nil {
		return err
	}
	if ended.status != cli.StatusDone {
		return errors.New(strings.TrimSpace(ended.said))
	}
	c.hold(done)
	return nil
}

// Credentials returns the object of a binding, with its credentials, or nil if the binding isn't ready.
func (c *commands) Credentials(ctx context.Context, key Key) (json.RawMessage, error) {
	ended, err := c.call(ctx, "credentials", ofKey(key))
	if err != nil || ended.status != cli.StatusDone {
		return nil, err
	}
	return json.RawMessage(ended.out), nil
}

// ListStates returns the state of each row, as `list` prints it.
func (c *commands) ListStates(ctx context.Context) (map[string]string, error) {
	ended, err := c.call(ctx, "list", "--bindings", "--json")
	if err != nil {
		return nil, err
	}
	states := map[string]string{}
	for decoder := json.NewDecoder(strings.NewReader(ended.out)); decoder.More(); {
		var row struct{ ID, State string }
		if err := decoder.Decode(&row); err != nil {
			return nil, fmt.Errorf("osb-platform list: %w", err)
		}
		states[row.ID] = row.State
	}
	return states, nil
}

// ShowState returns the state of a row, as `show` prints it.
func (c *commands) ShowState(ctx context.Context, key Key) (string, error) {
	ended, err := c.call(ctx, "show", ofKey(key), "--json")
	if err != nil {
		return "", err
	}
	var row struct{ State string }
	if err := json.Unmarshal([]byte(ended.out), &row); err != nil {
		return "", fmt.Errorf("osb-platform show: %w", err)
	}
	return row.State, nil
}

func (c *commands) counts() (instances, bindings int) {
	c.mutex.Lock()
	defer c.mutex.Unlock()
	for key := range c.deeds.ordered {
		if key.Binding == "" {
			instances++
		} else {
			bindings++
		}
	}
	return instances, bindings
}

// missingDeeds returns what the records don't show of the operator's deeds.
func (c *commands) missingDeeds(records map[Key]Record) (all report.Differences) {
	c.mutex.Lock()
	defer c.mutex.Unlock()
	for key := range c.deeds.ordered {
		if !records[key].Known {
			all.Add(key, Stuck, "it was ordered, and the platform has no record")
		}
	}
	for key := range c.deeds.removed {
		if it := records[key]; !it.IsEnded() && it.State != platform.Abandoned {
			all.Add(key, Stuck, "it was to be removed, and its record says "+string(it.State))
		}
	}
	for key := range c.deeds.abandoned {
		if it := records[key]; it.State != platform.Abandoned {
			all.Add(key, Stuck, "it was abandoned, and its record says "+string(it.State))
		}
	}
	return all.InOrder()
}

// An endedCommand is how a command has ended, at its last call.
type endedCommand struct {
	status    int
	out, said string
	killedAt  string // the crash point at which it was killed before, or empty
	wasAway   bool   // the store was away at a call before: then nobody knows what that call has written
}

// call runs a command, and again if it was killed or the store was away. If ctx is done, it isn't begun again.
func (c *commands) call(ctx context.Context, words ...string) (ended endedCommand, err error) {
	point, killedAt, wasAway := c.pointOf(words[0]), "", false
	for until := time.Now().Add(longestAway); ; {
		if ctx.Err() != nil {
			return ended, ctx.Err()
		}
		ended, err = c.once(ctx, point, words)
		switch {
		case err != nil:
			return ended, err
		case ended.status == -1 && point != "":
			c.visit(point)
			killedAt, point = point, ""
		case ended.status == cli.StatusUnavailable && time.Now().Before(until):
			wasAway = true
			fault.Sleep(ctx, awayEach)
		case ended.status == cli.StatusDone || ended.status == statusRejected:
			ended.killedAt, ended.wasAway = killedAt, wasAway
			return ended, nil
		default:
			said := fmt.Sprintf("osb-platform %s has ended with %d: %.500s", strings.Join(words, " "), ended.status, ended.said)
			c.note(said)
			return ended, errors.New(said)
		}
	}
}

// once runs a command once. Its status is -1 if it was killed.
func (c *commands) once(ctx context.Context, point string, words []string) (ended endedCommand, err error) {
	select {
	case c.slots <- struct{}{}:
		defer func() { <-c.slots }()
	case <-ctx.Done():
		return ended, ctx.Err()
	}
	line := append(append([]string{}, c.line...), words...)
	switch words[0] {
	case "retry", "abandon":
		line = append(line, c.journal...)
	}
	var out, said bytes.Buffer
	process := exec.Command(line[0], line[1:]...)
	process.Env = append(append([]string{}, c.environment...), "OSB_CRASH_AT="+point)
	process.Stdout, process.Stderr = &out, &said
	done, err := child.Start(process, syscall.SIGKILL)
	if err != nil {
		return ended, err
	}
	<-done
	return endedCommand{status: process.ProcessState.ExitCode(), out: out.String(), said: said.String()}, nil
}

// kill has commands killed at their crash points, or not any more.
func (c *commands) kill(is bool) { c.hold(func() { c.isKill = is }) }

// pointOf returns the crash point at which the next command is to be killed, or "".
func (c *commands) pointOf(command string) string {
	switch command {
	case "list", "show", "credentials":
		return ""
	}
	c.mutex.Lock()
	defer c.mutex.Unlock()
	if !c.isKill || c.chance.Float64() >= killedCommands {
		return ""
	}
	return []string{orderNext, orderWritten}[c.chance.Intn(2)]
}

func (c *commands) visit(point string) { c.hold(func() { c.visited[point]++ }) }

// points returns how often commands were killed, which of their crash points were visited, and which weren't.
func (c *commands) points() (kills int, visited, unvisited []string) {
	c.mutex.Lock()
	defer c.mutex.Unlock()
	for _, point := range []string{orderNext, orderWritten} {
		kills += c.visited[point]
		if c.visited[point] > 0 {
			visited = append(visited, point)
		} else {
			unvisited = append(unvisited, point)
		}
	}
	return kills, visited, unvisited
}

func (c *commands) note(what string) { c.hold(func() { c.wrong = append(c.wrong, what) }) }

func (c *commands) oddities() []string {
	c.mutex.Lock()
	defer c.mutex.Unlock()
	return append([]string{}, c.wrong...)
}
