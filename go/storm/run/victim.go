package run

import (
	"context"
	"fmt"
	"math/rand"
	"net/url"
	"os"
	"os/exec"
	"regexp"
	"sort"
	"syscall"
	"time"

	"pippinterm/internal/child"
	"pippinterm/storm/fault"
	"pippinterm/storm/run/shell"
)

// A process is how a program is started.
type process struct {
	name        string // broker or platform
	number      int    // from 1, or 0 if there is no other one of its kind
	line        []string
	environment []string
	log         string // the file to which it logs
}

// String returns the name, with the number if there are several.
func (p process) String() string {
	if p.number == 0 {
		return p.name
	}
	return fmt.Sprintf("%s %d", p.name, p.number)
}

// A victim is a program that is killed, paused and started again, again and again: at each of its crash points, and in
// between at random.
type victim struct {
	process
	chance   *rand.Rand
	events   *events
	times    lifetimes
	accepted []int // statuses with which it may end by itself, because its store is away

	running *exec.Cmd
	ended   <-chan error // of running; it is closed once that has ended
	// wasKilled says that the process that has ended last was killed.
	wasKilled bool

	guard
	tally
}

// A tally is what has become of a victim, and of its crash points.
type tally struct {
	kills, pauses int
	ends          int      // how often it has ended by itself, with a status that is accepted
	open          []string // the crash points that are still to be visited, besides trying
	trying        string   // the crash point that the process is to reach now, or empty
	visited       []string
	odd           []string // ends that nobody caused, and errors that the program didn't expect
}

// lifetimes are between which times something lasts.
type lifetimes struct {
	life, pause, rest [2]time.Duration
	point             time.Duration // for the program to reach a crash point, at most
	end               time.Duration // for the program to end at SIGTERM, at most
}

// usualTimes are those of a storm. A pause is longer than a request of the platform, and longer than its lease if the
// program was built with the tag storm.
func usualTimes() lifetimes {
	return lifetimes{
		life: [2]time.Duration{800 * time.Millisecond, 4 * time.Second}, point: 8 * time.Second,
		pause: [2]time.Duration{3500 * time.Millisecond, 6 * time.Second}, rest: [2]time.Duration{0, time.Second / 2},
		end: 40 * time.Second,
	}
}

const (
	pausedShare = 0.1 // of the lives
	pointShare  = 0.8 // of the lives, while there are crash points to visit
	firstPaused = 3   // this life is paused, so that each program is paused in a short storm, too
)

// run kills and starts the program until ctx is done. The last process goes on.
func (v *victim) run(ctx context.Context) {
	for life := 1; ctx.Err() == nil; life++ {
		isPaused := life == firstPaused || v.chance.Float64() < pausedShare
		point := ""
		if !isPaused && v.chance.Float64() < pointShare {
			point = v.nextPoint()
		}
		if !v.start(point) {
			return
		}
		v.live(ctx, point, isPaused)
		v.kill()
		fault.Sleep(ctx, v.between(v.times.rest))
	}
}

// live lets a process live until it is to be killed.
func (v *victim) live(ctx context.Context, point string, isPaused bool) {
	limit := v.between(v.times.life)
	if point != "" {
		limit = v.times.point
	}
	isDead := v.dies(ctx, limit)
	if isDead && v.wasKilled && point != "" {
		v.visit(point)
	} else if point != "" {
		v.hold(func() { v.open, v.trying = append(v.open, point), "" })
	}
	if isPaused && !isDead {
		v.pause(ctx)
	}
}

// nextPoint takes a crash point to visit next, or returns "".
func (v *victim) nextPoint() string {
	v.mutex.Lock()
	defer v.mutex.Unlock()
	if len(v.open) == 0 {
		return ""
	}
	v.trying, v.open = v.open[0], v.open[1:]
	return v.trying
}

func (v *victim) visit(point string) {
	v.tell("is killed at " + point)
	v.hold(func() { v.visited, v.trying, v.kills = append(v.visited, point), "", v.kills+1 })
}

// start starts a process, which is to kill itself at a crash point. It returns false if that fails.
func (v *victim) start(point string) bool {
	log, err := os.OpenFile(v.log, os.O_WRONLY|os.O_CREATE|os.O_APPEND, 0o600)
	if err != nil {
		v.note(err.Error())
		return false
	}
	defer log.Close()
	v.running = exec.Command(v.line[0], v.line[1:]...)
	v.running.Env = append(append([]string{}, v.environment...), "OSB_CRASH_AT="+point)
	v.running.Stdout, v.running.Stderr = log, log
	if v.ended, err = child.Start(v.running, syscall.SIGKILL); err != nil {
		v.note(err.Error())
		return false
	}
	return true
}

// startCalmly starts a process that is to go on. If it ends at once because its store is away, or because the store
// still has the last process, it is started again.
func (v *victim) startCalmly() {
	const tries, rest = 20, time.Second
	for try := 0; v.start("") && len(v.accepted) > 0 && try < tries; try++ {
		if !v.dies(context.Background(), rest) {
			return
		}
	}
}

// dies waits until the process has ended, at most for a time, and reports whether it has. wasKilled is about that.
func (v *victim) dies(ctx context.Context, within time.Duration) bool {
	timer := time.NewTimer(within)
	defer timer.Stop()
	select {
	case _, isFirst := <-v.ended:
		v.judge(isFirst)
		return true
	case <-ctx.Done():
	case <-timer.C:
	}
	select { // both may be the case
	case _, isFirst := <-v.ended:
		v.judge(isFirst)
		return true
	default:
		return false
	}
}

// judge notes an end of the process that isn't a kill, and isn't because its store is away.
func (v *victim) judge(isFirst bool) {
	if !isFirst {
		return
	}
	how, _ := v.running.ProcessState.Sys().(syscall.WaitStatus)
	v.wasKilled = how.Signaled() && how.Signal() == syscall.SIGKILL
	if v.wasKilled {
		return
	}
	status := v.running.ProcessState.ExitCode()
	for _, accepted := range v.accepted {
		if status == accepted {
			v.tell(fmt.Sprintf("ends with status %d", status))
			v.hold(func() { v.ends++ })
			return
		}
	}
	v.note(fmt.Sprintf("%s has ended by itself: %v", v.line[0], v.running.ProcessState))
}

// pause stops the process for a while, and then lets it live a little longer.
func (v *victim) pause(ctx context.Context) {
	rest := v.between(v.times.pause)
	if v.running.Process.Signal(syscall.SIGSTOP) != nil {
		return
	}
	v.tell(fmt.Sprintf("is paused for %.1f s", rest.Seconds()))
	fault.Sleep(ctx, rest)
	_ = v.running.Process.Signal(syscall.SIGCONT)
	v.hold(func() { v.pauses++ })
	v.dies(ctx, v.between(v.times.life)/2)
}

// kill kills the process, if it lives, and waits for its end.
func (v *victim) kill() {
	if v.running == nil || v.dies(context.Background(), 0) {
		return
	}
	_ = v.running.Process.Kill()
	<-v.ended
	v.tell("is killed")
	v.hold(func() { v.kills++ })
}

// end ends the process as an operator does. What is odd about that is noted.
func (v *victim) end() {
	if v.running == nil {
		return
	}
	_ = v.running.Process.Signal(syscall.SIGTERM)
	timer := time.NewTimer(v.times.end)
	defer timer.Stop()
	select {
	case err, isFirst := <-v.ended:
		if isFirst && err != nil {
			v.note(fmt.Sprintf("%s has ended after SIGTERM: %v", v.line[0], err))
		}
	case <-timer.C:
		v.note(v.line[0] + " didn't end after SIGTERM")
		_ = v.running.Process.Kill()
		<-v.ended
	}
}

func (v *victim) tell(what string) {
	if v.number > 0 {
		what = fmt.Sprintf("number %d %s", v.number, what)
	}
	v.events.add(Key{}, v.name, what)
}

func (v *victim) note(what string) { v.hold(func() { v.odd = append(v.odd, what) }) }

func (v *victim) counts() (now tally) {
	v.hold(func() { now = v.tally })
	return now
}

func (v *victim) between(times [2]time.Duration) time.Duration {
	return times[0] + time.Duration(v.chance.Float64()*float64(times[1]-times[0]))
}

func (t tally) remainingPoints() []string {
	points := append([]string{}, t.open...)
	if t.trying != "" {
		points = append(points, t.trying)
	}
	sort.Strings(points)
	return points
}

// cry is what a program logs of an error that nothing has caught. A panic may be the error in a line of JSON.
var cry = regexp.MustCompile(
	`(?m)^(panic: |fatal error: |WARNING: DATA RACE|\{.*"error":".*\bpanic: |\{.*"event":"step_failed").*`)

// cries returns the lines of a log that report an error which nothing has caught.
func cries(log string) []string {
	text, err := os.ReadFile(log)
	if err != nil {
		return []string{"the log can't be read: " + err.Error()}
	}
	return cry.FindAllString(string(text), -1)
}

// commandTime is how long a command that kills or starts the broker may take, and how long the broker may then take
// until it can be reached.
const commandTime = time.Minute

// lastTime is for how long a command of the user's may go on after the first signal.
const lastTime = 10 * time.Second

// linger returns the context of a command. Once running is done, the command has lastTime. Once deleting is done, it
// has none.
func linger(running, deleting context.Context) (ctx context.Context, cancel func()) {
	ctx, cancel = context.WithCancel(deleting)
	go func() {
		select {
		case <-running.Done():
			fault.Sleep(ctx, lastTime)
			cancel()
		case <-ctx.Done():
		}
	}()
	return ctx, cancel
}

// restart kills the broker and starts it again, and waits until it can be reached.
func (c Commands) restart(broker *url.URL) func(context.Context) error {
	if !c.restarts() {
		return nil
	}
	commands := []string{c.Restart}
	if c.Restart == "" {
		commands = []string{c.Kill, c.Start}
	}
	return func(ctx context.Context) error {
		ctx, cancel := context.WithTimeout(ctx, commandTime)
		defer cancel()
		for _, command := range commands {
			if err := shell.Run(ctx, command); err != nil {
				return fmt.Errorf("the command %q: %w", command, err)
			}
		}
		return awaitBroker(ctx, broker)
	}
}

func awaitBroker(ctx context.Context, broker *url.URL) error {
	for {
		connection, err := fault.Dial(ctx, broker)
		if err == nil {
			return connection.Close()
		}
		if !fault.Sleep(ctx, 20*time.Millisecond) {
			return fmt.Errorf("the broker can't be reached after its start: %w", err)
		}
	}
}
