package fault

import (
	"bytes"
	"context"
	"fmt"
	"reflect"
	"strings"
	"testing"

	"pippinterm/internal/diff"
)

func TestList(t *testing.T) {
	list := []Injection{{Number{Subject{12, 0}, 3}, AnswerLost}, {Number{Subject{12, 2}, 1}, HangUp}}
	var text bytes.Buffer
	if err := WriteList(&text, list); err != nil || text.String() != "12.3 answer-lost\n12/2.1 hang-up\n" {
		t.Fatalf("got the error %v and the list %q, want two lines", err, text.String())
	}
	read := diff.Value(ReadList(strings.NewReader("# a comment\n\n" + text.String())))(t)
	diff.Check(t, read, list, "the list")
}

func TestListRejected(t *testing.T) {
	for _, line := range []string{
		"12.3", "12.3 x", "12.3 none", "12 hang-up", "0.1 hang-up", "1.0 hang-up", "a.1 hang-up", "1/0.1 hang-up",
		"1/.1 hang-up", "1.1 hang-up twice", "1.1 hang-up\n1.1 repeated", "-1.1 hang-up",
	} {
		t.Run(line, func(t *testing.T) {
			diff.Error(t, diff.Err(ReadList(strings.NewReader(line))), "%q", line)
		})
	}
}

// A request has the same fault for the same seed, in whatever order the requests arrive.
func TestBySeed(t *testing.T) {
	one, other := BySeed(7, 0.5, StandardWeights(true)), BySeed(7, 0.5, StandardWeights(true))
	next := BySeed(8, 0.5, StandardWeights(true))
	for n := 1; n <= 200; n++ {
		one.Next(Subject{1 + n%5, n % 2})
		next.Next(Subject{1 + n%5, n % 2})
	}
	for n := 200; n >= 1; n-- {
		other.Next(Subject{1 + n%5, n % 2})
	}
	diff.Check(t, other.Faults(), one.Faults(), "the faults by one seed, in another order")
	diff.Equal(t, reflect.DeepEqual(one.Faults(), next.Faults()), false, "the same faults by two seeds")
	if count := len(one.Faults()); count < 60 || count > 140 {
		t.Errorf("got %d of 200 requests with a fault, want 60 to 140", count)
	}
}

// All kinds are chosen, and restarts only if the broker can be restarted.
func TestAllKinds(t *testing.T) {
	for _, restarts := range []bool{false, true} {
		t.Run(fmt.Sprintf("restarts %v", restarts), func(t *testing.T) {
			met, source := map[Kind]bool{}, BySeed(1, 1, StandardWeights(restarts))
			for n := 0; n < 2000; n++ {
				met[source.Next(Subject{Instance: 1}).Kind] = true
			}
			for _, kind := range Kinds() {
				diff.Equal(t, met[kind], restarts || !kind.IsRestart(), "restarts %v: %s is chosen", restarts, kind)
			}
		})
	}
}

// A list that is replayed gives the same faults, and End ends them.
func TestByList(t *testing.T) {
	first := BySeed(7, 0.5, StandardWeights(false))
	for n := 0; n < 20; n++ {
		first.Next(Subject{Instance: 3})
	}
	again := ByList(7, first.Faults())
	for n := 0; n < 20; n++ {
		again.Next(Subject{Instance: 3})
		again.Next(Subject{Instance: 4})
	}
	diff.Check(t, again.Faults(), first.Faults(), "the faults again")
	ended := ByList(7, []Injection{{Number{Subject{1, 0}, 2}, HangUp}})
	ended.Next(Subject{Instance: 1})
	ended.End()
	if fault := ended.Next(Subject{Instance: 1}); fault.Kind != None || len(ended.Faults()) != 0 {
		t.Errorf("after the end: got the fault %+v, want none", fault)
	}
}

// A fault of a list that befalls no request, or only after the end, is unmet. Faults by a seed never are.
func TestUnmet(t *testing.T) {
	const list = "9.1 hang-up\n2.1 hang-up\n2/1.1 hang-up\n1.2 answer-lost\n1.1 answer-lost"
	s := ByList(1, diff.Value(ReadList(strings.NewReader(list)))(t))
	s.Next(Subject{Instance: 1})
	s.Next(Subject{Instance: 2, Binding: 1})
	s.End()
	s.Next(Subject{Instance: 1})
	diff.Equal(t, fmt.Sprint(s.Unmet()), "[1.2 answer-lost 2.1 hang-up 9.1 hang-up]", "")
	diff.Equal(t, fmt.Sprint(BySeed(1, 0.5, StandardWeights(false)).Unmet()), "[]", "unmet faults by a seed")
}

// loserOf returns a test that passes if a list has all of these, and counts its calls.
func loserOf(calls *int, needed ...int) func(context.Context, []int) bool {
	return func(_ context.Context, list []int) bool {
		*calls++
		has := map[int]bool{}
		for _, number := range list {
			has[number] = true
		}
		for _, number := range needed {
			if !has[number] {
				return false
			}
		}
		return true
	}
}

func numbers(count int) (list []int) {
	for n := 0; n < count; n++ {
		list = append(list, n)
	}
	return list
}

// Only what is needed is left, in its order, wherever it stands.
func TestMinimize(t *testing.T) {
	for _, needed := range [][]int{{0}, {99}, {41}, {0, 99}, {3, 4}, {1, 50, 51, 98}, {10, 20, 30, 40, 50, 60, 70}} {
		t.Run(fmt.Sprint(needed), func(t *testing.T) {
			calls := 0
			list, isShortest := Minimize(context.Background(), numbers(100), loserOf(&calls, needed...))
			diff.Check(t, list, needed, "what is left")
			diff.Equal(t, isShortest, true, "it is the shortest")
			diff.AtMost(t, calls, 500, "")
		})
	}
}

func TestMinimizeSmallLists(t *testing.T) {
	calls := 0
	for _, all := range [][]int{{}, {5}, numbers(3)} {
		t.Run(fmt.Sprint(all), func(t *testing.T) {
			list, isShortest := Minimize(context.Background(), append([]int{}, all...), loserOf(&calls, all...))
			diff.Equal(t, fmt.Sprint(list), fmt.Sprint(all), "what is left")
			diff.Equal(t, isShortest, true, "it is the shortest")
		})
	}
}

// At the end of the time, what was found so far passes the test, and isn't called the shortest.
func TestMinimizeEnds(t *testing.T) {
	ctx, cancel := context.WithCancel(context.Background())
	calls := 0
	loses := loserOf(&calls, 3, 60)
	list, isShortest := Minimize(ctx, numbers(100), func(ctx context.Context, list []int) bool {
		if calls == 8 {
			cancel()
		}
		return loses(ctx, list)
	})
	if !loses(ctx, list) || len(list) == 2 || len(list) == 100 || isShortest {
		t.Errorf("got %v and the shortest %v, want a shorter one, and false", list, isShortest)
	}
	diff.AtMost(t, calls, 10, "")
}

// A list is the shortest only if each of its parts was tried to its end: also the last one.
func TestMinimizeEndsAtLast(t *testing.T) {
	for last := 1; last <= 8; last++ {
		ctx, cancel := context.WithCancel(context.Background())
		calls := 0
		loses := loserOf(&calls, 0, 1, 2)
		list, isShortest := Minimize(ctx, numbers(3), func(ctx context.Context, list []int) bool {
			if calls+1 == last {
				cancel()
			}
			return loses(ctx, list)
		})
		if wasWhole := ctx.Err() == nil; len(list) != 3 || isShortest != wasWhole || (calls < last) != wasWhole {
			t.Errorf("cut at %d of %d: got %v and the shortest %v, want 3, and true if it wasn't cut", last, calls, list,
				isShortest)
		}
		cancel()
	}
}
