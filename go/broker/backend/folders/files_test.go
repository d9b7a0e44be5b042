package folders

import (
	"context"
	"errors"
	"os"
	"strings"
	"sync/atomic"
	"syscall"
	"testing"
	"time"

	"pippinterm/internal/diff"
	"pippinterm/internal/waits"
	"pippinterm/osb"
)

// The fsyncs happen when they have to: after the names have changed, and before the content is deleted.
func TestOrderOfFsyncs(t *testing.T) {
	f := newFolders(t, t.TempDir())
	whole, part := first.Key.Instance.String(), partPrefix+first.Key.Instance.String()
	var seen []string
	f.topSync.init(func() error {
		found := names(t, f.top)
		if _, err := os.Stat(f.top + "/" + part + "/data"); err == nil {
			found = append(found, "data")
		}
		seen = append(seen, strings.Join(found, " "))
		return nil
	})
	check(t, f.Create(ctx, first))
	leave(t, f.top+"/"+whole+"/data")
	check(t, f.Delete(ctx, first))
	wanted := []string{".bindings .locks " + whole, ".bindings .locks " + part + " data", ".bindings .locks"}
	diff.Check(t, seen, wanted, "what was there at the fsyncs")
}

// A file is synced after it was written, and what fails isn't hidden by the other: a full disk has no error of fsync,
// and /dev/null can't be synced.
func TestErrorsOfWriteFile(t *testing.T) {
	for path, want := range map[string]os.PathError{
		"/dev/full": {Op: "write", Err: syscall.ENOSPC}, "/dev/null": {Op: "fsync", Err: syscall.EINVAL},
	} {
		t.Run(want.Op, func(t *testing.T) {
			var got *os.PathError
			err := writeFile(path, []byte("text"))
			if !errors.As(err, &got) || got.Op != want.Op || got.Err != want.Err || got.Path != path {
				t.Errorf("got %v, want %s %s: %v", err, want.Op, path, want.Err)
			}
		})
	}
}

// A part that another process has renamed without the fsync is written to disk before its content is deleted.
func TestPartIsSyncedBeforeItIsDeleted(t *testing.T) {
	f := newFolders(t, t.TempDir())
	data := f.part(first.Key.Instance) + "/data"
	leave(t, data)
	wrong := errors.New("the disk is broken")
	f.topSync.init(func() error { return wrong })
	diff.ErrorIs(t, f.Delete(ctx, first), wrong, "Delete")
	diff.NoError(t, diff.Err(os.Stat(data)), "the content before the fsync")
}

func TestErrorsOfFsync(t *testing.T) {
	f := newFolders(t, t.TempDir())
	bound := requestOf(osb.BindingKey(first.Key.Instance, other.Key.Instance))
	ofTop, ofBindings := errors.New("the top is broken"), errors.New("the folder of the bindings is broken")
	f.topSync.init(func() error { return ofTop })
	f.bindingsSync.init(func() error { return ofBindings })
	create := f.Create(ctx, first)
	_, bind := f.CreateBinding(ctx, bound)
	for name, c := range map[string]struct{ err, wanted error }{
		"Create": {create, ofTop}, "CreateBinding": {bind, ofBindings},
		"Sync": {f.Sync(ctx, first), ofTop}, "Sync of a binding": {f.Sync(ctx, bound), ofBindings},
		"DeleteBinding": {f.DeleteBinding(ctx, bound), ofBindings}, "Delete": {f.Delete(ctx, first), ofTop},
	} {
		t.Run(name, func(t *testing.T) {
			diff.ErrorIs(t, c.err, c.wanted, "%s", name)
		})
	}
}

// A slow is a call that reports that it has begun, and ends when it is let.
type slow struct {
	together
	begun chan struct{}
	end   chan error // what the call returns
}

func newSlow() *slow {
	s := &slow{begun: make(chan struct{}), end: make(chan error)}
	s.init(func() error {
		s.begun <- struct{}{}
		return <-s.end
	})
	return s
}

// start calls do in a goroutine, and returns once it waits. The channel gets what do returns.
func (s *slow) start(ctx context.Context) <-chan error {
	waits, returned := make(chan struct{}), make(chan error, 1)
	go func() { returned <- s.do(waitingContext{ctx, waits}) }()
	<-waits
	return returned
}

// A waitingContext is a context that reports when somebody begins to wait for its end.
type waitingContext struct {
	context.Context
	waits chan struct{}
}

func (w waitingContext) Done() <-chan struct{} {
	close(w.waits)
	return w.Context.Done()
}

func TestOneCallForAllWhoWait(t *testing.T) {
	s, wrong := newSlow(), errors.New("wrong")
	early := s.start(ctx)
	<-s.begun
	var late []<-chan error
	for n := 0; n < 10; n++ {
		late = append(late, s.start(ctx))
	}
	s.end <- nil
	diff.NoError(t, <-early, "the first call")
	<-s.begun
	time.Sleep(20 * time.Millisecond) // whoever doesn't wait for the end of the call returns meanwhile
	for n, returned := range late {
		select {
		case err := <-returned:
			t.Fatalf("%d: got %v before the end of a call that began after it, want it to wait", n, err)
		default:
		}
	}
	s.end <- wrong
	for n, returned := range late { // a third call would block here
		diff.Check(t, <-returned, wrong, "%d", n)
	}
}

func TestWhoeverWaitsMayLeave(t *testing.T) {
	s := newSlow()
	first := s.start(ctx)
	<-s.begun
	leaving, leave := context.WithCancel(ctx)
	left := s.start(leaving)
	leave()
	diff.ErrorIs(t, <-left, context.Canceled, "who left")
	s.end <- nil
	diff.NoError(t, <-first, "the first")
	next := s.start(ctx)
	<-s.begun
	s.end <- nil
	diff.NoError(t, <-next, "the next")
}

// Whoever could make a call that has just ended doesn't make it again.
func TestCallThatHasEndedIsNotMadeAgain(t *testing.T) {
	for n := 0; n < 20; n++ { // which of two channels do looks at first is left to chance
		calls := 0
		var shared together
		shared.init(func() error { calls++; return nil })
		if err := shared.do(endingContext{ctx, &shared}); err != nil || calls != 1 {
			t.Fatalf("got %d calls and %v, want 1 and no error", calls, err)
		}
	}
}

// An endingContext is a context. While somebody begins to wait for its end, it lets another one make the call.
type endingContext struct {
	context.Context
	shared *together
}

func (e endingContext) Done() <-chan struct{} {
	if err := e.shared.do(e.Context); err != nil {
		panic(err)
	}
	return e.Context.Done()
}

// A change that is made before do is called is covered by the call that do returns the error of.
func TestEachChangeIsCovered(t *testing.T) {
	var changes, covered int64
	var shared together
	shared.init(func() error {
		seen := atomic.LoadInt64(&changes)
		atomic.StoreInt64(&covered, seen)
		return nil
	})
	waits.Together(8, func(int) {
		for k := 0; k < 200; k++ {
			mine := atomic.AddInt64(&changes, 1)
			if err := shared.do(ctx); err != nil || atomic.LoadInt64(&covered) < mine {
				t.Errorf("got the change %d uncovered (%v), want it covered", mine, err)
				return
			}
		}
	})
}
