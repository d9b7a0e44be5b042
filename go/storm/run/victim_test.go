package run

import (
	"context"
	"fmt"
	"os"
	"path/filepath"
	"strings"
	"sync"
	"syscall"
	"testing"
	"time"

	"pippinterm/internal/diff"
	"pippinterm/internal/waits"
	"pippinterm/storm/fault"
)

// shortTimes are lifetimes of a test.
func shortTimes() lifetimes {
	return lifetimes{
		life: [2]time.Duration{20 * time.Millisecond, 60 * time.Millisecond}, point: 2 * time.Second,
		pause: [2]time.Duration{100 * time.Millisecond, 150 * time.Millisecond}, end: 2 * time.Second,
	}
}

// victimOf returns a victim that is a script of the shell. It counts its starts in the file starts of the folder.
func victimOf(t *testing.T, script string, points ...string) (v *victim, folder string) {
	t.Helper()
	folder = t.TempDir()
	return &victim{
		process: process{
			name: whoBroker, line: []string{"/bin/sh", "-c", "echo x >>starts; " + script},
			environment: append(os.Environ(), "PWD="+folder), log: filepath.Join(folder, "log"),
		},
		chance: fault.Chance(1, "test"), times: shortTimes(), tally: tally{open: points},
		events: silentEvents(),
	}, folder
}

// silentEvents are events at no time.
func silentEvents() *events { return &events{now: func() time.Duration { return 0 }} }

// runs runs a victim in its folder until a condition is met.
func runs(t *testing.T, v *victim, folder string, until func() bool) {
	t.Helper()
	v.line[2] = "cd " + folder + "; " + v.line[2]
	ctx, cancel := context.WithCancel(context.Background())
	var group sync.WaitGroup
	group.Add(1)
	go func() {
		defer group.Done()
		v.run(ctx)
	}()
	defer group.Wait()
	defer cancel()
	waits.Until(t, "the condition is met", until)
}

func starts(t *testing.T, folder string) int {
	t.Helper()
	text, err := os.ReadFile(filepath.Join(folder, "starts"))
	if !os.IsNotExist(err) {
		check(t, err)
	}
	return strings.Count(string(text), "x")
}

// A program is killed and paused, and started again each time. After the run no process is left.
func TestVictimIsKilled(t *testing.T) {
	t.Parallel()
	v, folder := victimOf(t, "exec sleep 60")
	runs(t, v, folder, func() bool { its := v.counts(); return its.kills >= 8 && its.pauses >= 1 })
	its := v.counts()
	// The last process may have been killed before it has counted itself.
	if started := starts(t, folder); its.kills < 8 || its.kills-started > 1 || started > its.kills || len(its.visited)+len(its.odd) > 0 {
		t.Errorf("got %d starts, %d kills, %v visited and odd %v, want at least 8 kills, each of one start", started, its.kills,
			its.visited, its.odd)
	}
	diff.Error(t, v.running.Process.Signal(syscall.Signal(0)), "a process is left")
}

// A paused process does nothing meanwhile, and goes on then.
func TestVictimIsPaused(t *testing.T) {
	t.Parallel()
	v, _ := victimOf(t, "exec sleep 60")
	v.line[2] = "exec sleep 60"
	if !v.start("") {
		t.Fatalf("got no start (%v), want one", v.odd)
	}
	defer v.kill()
	state := func() string {
		text := diff.Value(os.ReadFile("/proc/" + strings.TrimSpace(pidOf(v)) + "/stat"))(t)
		return strings.Fields(string(text[strings.LastIndexByte(string(text), ')')+1:]))[0]
	}
	done := make(chan struct{})
	go func() {
		defer close(done)
		v.times.pause = [2]time.Duration{300 * time.Millisecond, 300 * time.Millisecond}
		v.pause(context.Background())
	}()
	time.Sleep(100 * time.Millisecond)
	diff.Equal(t, state(), "T", "the state while it is paused")
	<-done
	diff.Equal(t, state() == "T", false, "it is still paused")
}

// Each crash point is visited once, also if the program doesn't reach it in its first life.
func TestVictimVisitsPoints(t *testing.T) {
	t.Parallel()
	v, folder := victimOf(t, `case "$OSB_CRASH_AT" in
		one) kill -9 $$;;
		two) if [ -e seen ]; then kill -9 $$; fi; touch seen;;
	esac
	exec sleep 60`, "one", "two")
	v.times.point = 200 * time.Millisecond
	runs(t, v, folder, func() bool { // a point that is tried is still to be visited
		its := v.counts()
		left := len(its.remainingPoints())
		diff.AtLeast(t, left+len(its.visited), 2, "")
		return left == 0
	})
	diff.Equal(t, len(v.counts().visited), 2, "crash points that were visited")
	diff.Equal(t, len(v.counts().odd), 0, "what is odd: %v", v.counts().odd)
}

// An end that nobody caused is noted, and so is a program that ends with an error at SIGTERM, or not at all.
func TestVictimIsOdd(t *testing.T) {
	t.Parallel()
	v, folder := victimOf(t, "exit 3")
	runs(t, v, folder, func() bool { return len(v.counts().odd) >= 2 })
	diff.Contains(t, v.counts().odd[0], "has ended by itself: exit status 3", "")
	for script, wanted := range map[string]string{
		"exec sleep 60":                            "has ended after SIGTERM: signal: terminated",
		"trap '' TERM; sleep 60":                   "didn't end after SIGTERM",
		"trap 'exit 0' TERM; sleep 0.3; sleep 0.3": "",
	} {
		t.Run(script, func(t *testing.T) {
			v, _ := victimOf(t, script)
			v.line[2] = script
			v.times.end = time.Second
			if !v.start("") {
				t.Fatalf("got no start (%v), want one", v.odd)
			}
			time.Sleep(100 * time.Millisecond)
			v.end()
			if got := strings.Join(v.counts().odd, "\n"); (wanted == "") != (got == "") || !strings.Contains(got, wanted) {
				t.Errorf("%s: got %q, want %q", script, got, wanted)
			}
			_ = syscall.Kill(-v.running.Process.Pid, syscall.SIGKILL) // its sleep, if it has left one
		})
	}
}

// A program may end with a status that says that its store is away. It is started again, also in the calm. That isn't a
// visit of a crash point.
func TestVictimWhoseStoreIsAway(t *testing.T) {
	t.Parallel()
	v, folder := victimOf(t, "exit 75", "one")
	v.accepted = []int{75}
	runs(t, v, folder, func() bool { return v.counts().ends >= 3 })
	its := v.counts() // on a busy machine some are killed before they end
	if uncounted := starts(t, folder) - its.kills - its.ends; uncounted > 0 || len(its.visited)+len(its.odd) > 0 {
		t.Errorf("got %d ends that aren't counted, %v visited and odd %v, want none", uncounted, its.visited, its.odd)
	}
	v, folder = victimOf(t, "[ $(wc -l <starts) -ge 3 ] || exit 75; exec sleep 60")
	v.accepted = []int{75}
	v.line[2] = "cd " + folder + "; " + v.line[2]
	v.startCalmly()
	defer v.kill()
	diff.Equal(t, starts(t, folder), 3, "starts")
	diff.Equal(t, v.counts().ends, 2, "ends")
}

// What a program logs of an error that nothing has caught is found.
func TestCries(t *testing.T) {
	log := filepath.Join(t.TempDir(), "log")
	text := `{"event":"request","error":"no panic"}
panic: one
{"event":"work","error":"panic: two"}
{"event":"step_failed","error":"three"}
fatal error: four
{"event":"request","panic":"x"}
`
	check(t, os.WriteFile(log, []byte(text), 0o600))
	diff.Equal(t, len(cries(log)), 4, "")
	diff.Equal(t, len(cries(log+"-none")), 1, "a log that can't be read")
}

// README and the page of storms say how long a storm pauses, and in which build a lease ends before that.
func TestPausesAreWritten(t *testing.T) {
	pause := usualTimes().pause
	if pause[0] <= 3*time.Second { // the lease of a build with the tag storm
		t.Errorf("got a pause of %v, want one longer than a lease", pause[0])
	}
	want := fmt.Sprintf("for %v to %v seconds. ", pause[0].Seconds(), pause[1].Seconds())
	for file, want := range map[string]string{
		"../../../README.md": want, "../../../docs/storm.md": strings.Replace(want, "for ", "A pause lasts ", 1),
	} {
		t.Run(file, func(t *testing.T) {
			text := diff.Value(os.ReadFile(file))(t)
			diff.Contains(t, strings.Join(strings.Fields(string(text)), " ")+" ", want, "%s", file)
		})
	}
}
