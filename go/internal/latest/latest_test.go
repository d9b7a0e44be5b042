package latest

import (
	"context"
	"errors"
	"sync"
	"testing"
	"time"
)

// A server answers with the next number, once it is let.
type server struct {
	turn  sync.Mutex
	asked int
	err   error
	pass  chan struct{} // nil if it answers at once
}

func (s *server) ask(ctx context.Context) (int, error) {
	s.turn.Lock()
	s.asked++
	asked, err, pass := s.asked, s.err, s.pass
	s.turn.Unlock()
	if pass != nil {
		<-pass // and not ctx: a driver may not heed it
	}
	return asked, err
}

func (s *server) set(err error, pass chan struct{}) {
	s.turn.Lock()
	defer s.turn.Unlock()
	s.err, s.pass = err, pass
}

func expect(t *testing.T, of *Value[int], wait time.Duration, want int, wantErr error) {
	t.Helper()
	if got, err := of.Get(wait); got != want || !errors.Is(err, wantErr) {
		t.Errorf("got %d, %v; want %d, %v", got, err, want, wantErr)
	}
}

func TestGet(t *testing.T) {
	now, s, away := time.Unix(1000, 0), &server{}, errors.New("away")
	value := New(context.Background(), s.ask, Options{
		Kept: time.Second, Longest: time.Minute, Now: func() time.Time { return now },
	})
	expect(t, value, time.Minute, 1, nil)
	expect(t, value, time.Minute, 1, nil)
	now = now.Add(time.Second)
	s.set(away, nil)
	expect(t, value, time.Minute, 1, away)
	expect(t, value, time.Minute, 1, away) // an error is kept as long
	now = now.Add(time.Second)
	pass := make(chan struct{})
	s.set(nil, pass)
	for n := 0; n < 10; n++ { // no call is made beside the one that hangs
		expect(t, value, time.Millisecond, 1, ErrSlow)
	}
	close(pass)
	expect(t, value, time.Minute, 3, nil)
}

// A call gets a context that ends.
func TestLongest(t *testing.T) {
	value := New(context.Background(), func(ctx context.Context) (int, error) {
		<-ctx.Done()
		return 0, ctx.Err()
	}, Options{Kept: time.Second, Longest: time.Millisecond})
	expect(t, value, time.Minute, 0, context.DeadlineExceeded)
	ctx, cancel := context.WithCancel(context.Background())
	cancel()
	value = New(ctx, func(ctx context.Context) (int, error) { return 0, ctx.Err() }, Options{Longest: time.Minute})
	expect(t, value, time.Minute, 0, context.Canceled)
}
