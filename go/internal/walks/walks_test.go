package walks

import (
	"os"
	"path/filepath"
	"testing"

	"pippinterm/internal/diff"
	"pippinterm/osb"
)

var (
	instance = osb.MustParseID("00000000-0000-0000-0000-000000000001")
	service  = osb.MustParseID("00000000-0000-0000-0000-0000000000a0")
	plan     = osb.MustParseID("00000000-0000-0000-0000-0000000000c1")
)

// TestLives has the words that service_cases writes of these lives (crates/service_cases/stdout).
func TestLives(t *testing.T) {
	created, sent := osb.Create(instance, service, plan, true)
	pending, _, err := osb.Holding{}.Begin(osb.ModeSync, sent.Request, osb.Rules{})
	diff.NoError(t, err, "the arrival")
	held, answer, err := pending.End(osb.ModeSync, osb.OutcomeDone)
	diff.NoError(t, err, "the end")
	ready := diff.Value(created.Answer(sent.Attempt, answer))(t)
	refused, _, err := pending.End(osb.ModeSync, osb.OutcomeRefused400)
	diff.NoError(t, err, "the refusal")
	for _, test := range []struct {
		life Life
		want string
	}{
		{Life{There: "absent"}, "-; - - -; absent"},
		{Life{Record: created, IsOrdered: true, There: "absent"}, "wanted provision 1; - - -; absent"},
		{
			Life{Record: created, IsOrdered: true, Holding: pending, There: "whole"},
			"wanted provision 1; - provision -; whole",
		},
		{Life{Record: ready, IsOrdered: true, Holding: held, There: "whole"}, "ready - 1; ready - -; whole"},
		{Life{IsBinding: true, There: "absent"}, "-; - - -; absent; credentials - -"},
		{
			Life{Record: created, IsOrdered: true, Holding: refused, There: "absent", IsBinding: true},
			"wanted provision 1; - - tombstone; absent; credentials - -",
		},
		{
			Life{
				Record: ready, IsOrdered: true, Holding: held, There: "whole", IsBinding: true,
				Recorded: "token 1", Made: "token 2",
			},
			"ready - 1; ready - -; whole; credentials 1 2",
		},
	} {
		diff.Equal(t, test.life.String(), test.want, "a life")
	}
	diff.Equal(t, Line("instance arrive 1", "applied", "all"), "instance arrive 1  applied: all", "a line")
}

func TestWriter(t *testing.T) {
	folder := t.TempDir()
	t.Setenv("WALKS", "")
	NewWriter(t).Write([]string{"nobody has this"})
	t.Setenv("WALKS", folder)
	t.Run("a test", func(t *testing.T) {
		w := NewWriter(t)
		w.Write([]string{"a", "b"})
		w.Write([]string{"a"})           // the first begins with it
		w.Write([]string{"b"})           // and not with this
		w.Write([]string{"a", "b", "c"}) // nor with all of this
	})
	got := diff.Value(os.ReadFile(filepath.Join(folder, "walks.TestWriter.a_test")))(t)
	diff.Equal(t, string(got), "a\nb\nb\na\nb\nc\n", "the walks")
}
