//go:build crashpoints

package folders

import (
	"testing"

	"pippinterm/broker"
	"pippinterm/internal/crash"
	"pippinterm/internal/diff"
)

// After a crash at each crash point, another backend sees a part or all of it, and completes or deletes it.
func TestCrashes(t *testing.T) {
	creation := func(f *Folders) error { return f.Create(ctx, first) }
	deletion := func(f *Folders) error { return f.Delete(ctx, first) }
	bind := func(f *Folders) error { _, err := f.CreateBinding(ctx, bound); return err }
	unbind := func(f *Folders) error { return f.DeleteBinding(ctx, bound) }
	cases := map[string]struct {
		point   string
		request broker.Request
		before  []func(*Folders) error
		broken  func(*Folders) error
		left    broker.There
		create  func(*Folders) error
		delete  func(*Folders) error
	}{
		"creation": {"work-half", first, nil, creation, broker.Part, creation, deletion},
		"deletion": {
			"work-half", first, []func(*Folders) error{creation}, deletion, broker.Part, creation, deletion},
		"creation of a binding": {
			"binding-half", bound, []func(*Folders) error{creation}, bind, broker.Part, bind, unbind},
		"deletion of a binding": {
			"binding-half", bound, []func(*Folders) error{creation, bind}, unbind, broker.None, bind, unbind},
	}
	for name, c := range cases {
		t.Run(name, func(t *testing.T) {
			for goOn, wanted := range []broker.There{broker.None, broker.Whole} {
				t.Run(wanted.String(), func(t *testing.T) {
					f := newFolders(t, t.TempDir())
					for _, before := range c.before {
						check(t, before(f))
					}
					diff.Equal(t, crashes(c.point, func() { _ = c.broken(f) }), true, "a crash at %s", c.point)
					after := newFolders(t, f.top)
					has(t, after, c.request, c.left)
					check(t, []func(*Folders) error{c.delete, c.create}[goOn](after))
					has(t, after, c.request, wanted)
				})
			}
		})
	}
}

// crashes breaks a call off at a crash point, and returns whether it got there.
func crashes(point string, call func()) (isCrashed bool) {
	before := crash.Hook
	defer func() { crash.Hook = before }()
	crash.Hook = func(reached string) {
		if reached == point {
			panic(reached)
		}
	}
	defer func() { isCrashed = recover() == point }()
	call()
	return false
}

// After a crash in the middle of an update the folder has the settings of before, and another backend does the update.
func TestCrashOfAnUpdate(t *testing.T) {
	f := newFolders(t, t.TempDir())
	check(t, f.Create(ctx, first))
	update := updateTo(broker.Settings{PlanID: plan2})
	diff.Equal(t, crashes("work-half", func() { _ = f.Update(ctx, update) }), true, "a crash at work-half")
	after := newFolders(t, f.top)
	isUpdated(t, after, update, broker.None)
	check(t, after.Update(ctx, update))
	isUpdated(t, after, update, broker.Whole)

	back := broker.Update{Request: first, From: update.To, To: update.From}
	diff.Equal(t, crashes("work-half", func() { _ = f.Update(ctx, back) }), true, "a crash at work-half")
	check(t, newFolders(t, f.top).Delete(ctx, first))
	diff.Empty(t, names(t, f.settings()), "left of settings after the deletion")
}
