package folders

import (
	"encoding/json"
	"errors"
	"os"
	"strings"
	"testing"

	"pippinterm/broker"
	"pippinterm/internal/diff"
)

const plan2 = "00000000-0000-0000-0000-0000000000b2"

// updateTo is an update of the first instance, from the settings of its creation.
func updateTo(to broker.Settings) broker.Update {
	return broker.Update{Request: first, From: broker.Settings{PlanID: first.PlanID}, To: to}
}

// isUpdated fails the test unless LookUpdate returns what is wanted.
func isUpdated(t *testing.T, f *Folders, update broker.Update, wanted broker.There) {
	t.Helper()
	diff.Equal(t, diff.Value(f.LookUpdate(ctx, update))(t), wanted, "of the update")
}

func TestUpdate(t *testing.T) {
	f := newFolders(t, t.TempDir())
	update := updateTo(broker.Settings{PlanID: plan2, Parameters: json.RawMessage(`{"a":"<"}`), Version: "1"})
	isUpdated(t, f, update, broker.Part)
	if err := f.Update(ctx, update); err == nil || !strings.Contains(err.Error(), "doesn't exist") {
		t.Errorf("without a folder: got %v, want that it doesn't exist", err)
	} else if outlook := broker.OutlookOf(err); outlook != nil {
		t.Errorf("without a folder: got %v, want nothing that can be expected", outlook)
	}
	check(t, f.Create(ctx, first))
	leave(t, f.whole(first.Key.Instance)+"/data")
	isUpdated(t, f, update, broker.None)
	for n := 0; n < 2; n++ { // an update may be repeated
		check(t, f.Update(ctx, update))
		isUpdated(t, f, update, broker.Whole)
	}
	check(t, f.Sync(ctx, first))
	diff.NoError(t, diff.Err(os.Stat(f.whole(first.Key.Instance)+"/data")), "the content of the folder")
	text := string(diff.Value(os.ReadFile(f.settingsOf(first.Key.Instance)))(t))
	// SHA-256 of {"plan_id":"00000000-0000-0000-0000-0000000000b2","parameters":{"a":"\u003c"},"version":"1"}
	diff.Equal(t, text, "bb3538f2d8217079eb1ba4ec9c3f51564b2009d33f8b6b16c6054b6d95228253"+"\n", "the settings")
	next := broker.Update{Request: first, From: update.To, To: updateTo(broker.Settings{}).From}
	isUpdated(t, f, next, broker.None)
	isUpdated(t, f, updateTo(broker.Settings{PlanID: first.PlanID, Version: "2"}), broker.Part)
	check(t, f.Update(ctx, next))
	isUpdated(t, f, next, broker.Whole)

	check(t, f.Delete(ctx, first))
	diff.Empty(t, names(t, f.settings()), "left")
	check(t, f.Create(ctx, first))
	isUpdated(t, f, update, broker.None)
}

// An update that fails says why, and nobody takes it for done.
func TestErrorsOfUpdate(t *testing.T) {
	f := newFolders(t, t.TempDir())
	check(t, f.Create(ctx, first))
	update := updateTo(broker.Settings{PlanID: plan2})
	broken := updateTo(broker.Settings{PlanID: plan2, Parameters: json.RawMessage("{")})
	if err := f.Update(ctx, broken); err == nil {
		t.Error("parameters that aren't JSON: got no error, want one")
	}
	for _, odd := range []broker.Update{broken, {Request: first, From: broken.To}} {
		if _, err := f.LookUpdate(ctx, odd); err == nil {
			t.Error("parameters that aren't JSON: got no error of the look, want one")
		}
	}
	leave(t, f.settings())
	harmless := broker.Unharmed()
	diff.Check(t, broker.OutlookOf(f.Update(ctx, update)), &harmless, "with a file in the place of the folder")
	check(t, os.Remove(f.settings()))
	check(t, os.MkdirAll(f.settings()+"/"+partPrefix+first.Key.Instance.String(), 0o700))
	if err := f.Update(ctx, update); err == nil {
		t.Error("a folder in the place of the part: got no error, want one")
	}
	check(t, os.RemoveAll(f.settings()))
	check(t, os.MkdirAll(f.settingsOf(first.Key.Instance), 0o700))
	if err := f.Update(ctx, update); err == nil {
		t.Error("a folder in the place of the settings: got no error, want one")
	}
	if _, err := f.LookUpdate(ctx, update); err == nil {
		t.Error("a folder in the place of the settings: got no error of the look, want one")
	}
	leave(t, f.settingsOf(first.Key.Instance)+"/data")
	if err := f.Delete(ctx, first); err == nil {
		t.Error("settings that can't be removed: got no error, want one")
	}
	check(t, os.RemoveAll(f.settings()))
	check(t, os.MkdirAll(f.settingsOf(first.Key.Instance), 0o700))
	diff.Error(t, f.Update(ctx, update), "a folder in the place of the settings")
	diff.Equal(t, strings.Join(names(t, f.settings()), " "), first.Key.Instance.String(), "left of an update that has failed")
	wrong := errors.New("the disk is broken")
	f.settingsSync.init(func() error { return wrong })
	diff.ErrorIs(t, f.Sync(ctx, first), wrong, "Sync")
	check(t, os.RemoveAll(f.settings()))
	check(t, f.Create(ctx, first))
	err := f.Update(ctx, update)
	diff.ErrorIs(t, err, wrong, "Update")
	if broker.OutlookOf(err) == nil {
		t.Error("what can't be synced: got nothing that can be expected, want that the folder can be used")
	}
	diff.ErrorIs(t, f.Delete(ctx, first), wrong, "Delete")
}
