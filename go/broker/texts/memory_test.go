package texts_test

import (
	"testing"

	"pippinterm/broker/texts"
	"pippinterm/internal/diff"
	"pippinterm/osb"
)

// A text that was read or written means the same the next time, and those of bindings aren't those of instances.
func TestMemory(t *testing.T) {
	var memory texts.Memory
	service, plan := osb.MustParseID("00000000-0000-0000-0000-0000000000a0"), osb.MustParseID("00000000-0000-0000-0000-0000000000b1")
	for n := 0; n < 3000; n++ {
		id := osb.ID{14: byte(n >> 8), 15: byte(n)}
		asked := osb.Request{Kind: osb.KindProvision, ID: id, Service: service, Plan: plan}
		var none osb.Holding
		pending, _, err := none.Begin(osb.ModeSync, asked, osb.Rules{})
		diff.NoError(t, err, "Begin")
		ready, _, err := pending.End(osb.ModeSync, osb.OutcomeDone)
		diff.NoError(t, err, "End")
		for _, holding := range []osb.Holding{none, pending, ready, ready} {
			for _, isBinding := range []bool{false, true} {
				want := diff.Value(holding.MarshalJSON())(t)
				if isBinding {
					want = diff.Value(holding.BindingText())(t)
				}
				text := diff.Value(memory.Text(isBinding, holding))(t)
				diff.Equal(t, text, string(want), "the text, of a binding %t", isBinding)
				diff.Equal(t, diff.Value(memory.Holding(isBinding, text))(t), holding, "the holding")
			}
		}
	}
	if got, err := memory.Holding(false, diff.Value(memory.Text(true, osb.Holding{}))(t)); err == nil {
		t.Errorf("the text of a binding as that of an instance: got %v, want an error", got)
	}
}
