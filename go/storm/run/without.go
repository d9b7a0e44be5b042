package run

import (
	"context"
	"fmt"
	"strings"

	"pippinterm/storm/fault"
)

// A designPart is one of the design that can be taken out of programs that were built with the build tag storm.
type designPart struct {
	name          string
	isOfPlatform  bool
	isRule        bool // of the broker about bindings: as long as the platform keeps its own, nothing goes wrong without it
	isUsualBroker bool // the whole broker is one as brokers are usually written
	needsFolders  bool // with databases, the server has the locks, or the work is otherwise
}

var parts = []designPart{
	{name: "tombstones"}, {name: "work", needsFolders: true}, {name: "busy"}, {name: "attempts", isOfPlatform: true},
	{name: "locks", needsFolders: true}, {name: "available", isRule: true}, {name: "held", isRule: true},
	{name: "broker", needsFolders: true, isUsualBroker: true}, {name: "platform", isOfPlatform: true},
	{name: withoutBoth, needsFolders: true, isUsualBroker: true},
}

const (
	withoutAttempts = "attempts" // for which other faults are chosen than usually
	withoutBoth     = "both"     // broker and platform, each out of its program
)

// Parts returns the names of the parts.
func Parts() (names []string) {
	for _, part := range parts {
		names = append(names, part.name)
	}
	return names
}

func partOf(name string) designPart {
	for _, part := range parts {
		if part.name == name {
			return part
		}
	}
	return designPart{}
}

// weights are how often the kinds of faults are chosen. Without attempts, most answers are too late or missing: then
// the 200 to a Provision that arrived twice is taken for that to a Deprovision that was swallowed.
func (c BothOptions) weights() fault.Weights {
	weights := fault.StandardWeights(false)
	if c.Without != withoutAttempts {
		return weights
	}
	for at, weight := range weights {
		switch weight.Kind {
		case fault.RepeatedUnread:
			weights[at].Weight = 120
		case fault.RequestSwallowed:
			weights[at].Weight = 80
		}
	}
	return weights
}

// share is how many of all requests have a fault: without attempts at least 0.7.
func (c BothOptions) share() float64 {
	const withoutAttemptsAtLeast = 0.7
	if c.Without == withoutAttempts && c.Share > 0 && c.Share < withoutAttemptsAtLeast {
		return withoutAttemptsAtLeast
	}
	return c.Share
}

// isKilled reports whether a program is killed again and again: none is in a calm storm. A platform without attempts
// isn't: one that is killed hears no late answer.
func (b *BothStorm) isKilled(v *victim) bool {
	return !b.options.Calm && (b.options.Without != withoutAttempts || v.name != whoPlatform)
}

// withoutOf returns the variable that takes the part out of a program.
func (c BothOptions) withoutOf(program string) []string {
	of := partOf(c.Without)
	switch {
	case of.name == withoutBoth:
		return []string{"OSB_WITHOUT=" + program}
	case of.name == "" || of.isOfPlatform != (program == whoPlatform):
		return nil
	}
	return []string{"OSB_WITHOUT=" + c.Without}
}

// checkTag returns an error if a part is to be taken out, and a program was built without the tag storm. A program with
// the tag doesn't start without a part that it doesn't have.
func (b *BothStorm) checkTag(ctx context.Context) error {
	for _, program := range []*victim{b.brokers[0], b.workers[0]} {
		if len(b.options.withoutOf(program.name)) == 0 {
			continue
		}
		environment := append(append([]string{}, program.environment...), "OSB_WITHOUT=no-such-part")
		if err := b.probe(ctx, program, environment, "", "storm"); err != nil {
			return err
		}
	}
	return nil
}

// probe starts a program with something at which it ends if it was built with a tag, and otherwise returns an error.
func (b *BothStorm) probe(ctx context.Context, of *victim, environment []string, point, tag string) error {
	probe := &victim{process: of.process, chance: of.chance, events: of.events, times: of.times}
	probe.environment = environment
	if !probe.start(point) {
		return fmt.Errorf("%s can't be started: %s", of.line[0], strings.Join(probe.odd, ", "))
	}
	hasEnded := probe.dies(ctx, probe.times.point)
	probe.kill()
	if !hasEnded {
		return fmt.Errorf("%s was built without the tag %s", of.line[0], tag)
	}
	return nil
}
