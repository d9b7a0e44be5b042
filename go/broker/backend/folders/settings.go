package folders

import (
	"context"
	"errors"
	"fmt"
	"io/fs"
	"os"
	"strings"

	"pippinterm/broker"
	"pippinterm/internal/crash"
	"pippinterm/osb"
)

// The settings of a folder are its plan, its parameters and the version of its maintenance. A folder that was never
// updated has those with which it was created. After that, the file .settings/INSTANCE has their text, as a line. The
// label has the plan, for people.

func (f *Folders) settings() string { return f.top + "/.settings" }

func (f *Folders) settingsOf(instance osb.ID) string { return f.settings() + "/" + instance.String() }

func (f *Folders) settingsPart(instance osb.ID) string {
	return f.settings() + "/" + partPrefix + instance.String()
}

// LookUpdate returns how much of an update is done, as broker.UpdateBackend says. The folder has to exist.
//
// Errors: those of the file system. Nobody knows then which settings the folder has.
func (f *Folders) LookUpdate(ctx context.Context, update broker.Update) (broker.There, error) {
	there, err := f.Look(ctx, update.Request)
	if err != nil || there != broker.Whole {
		return broker.Part, err
	}
	has, err := f.readSettings(update.Key.Instance)
	if err != nil {
		return broker.Part, wrap(err)
	}
	done, err := update.Done(has)
	return done, wrap(err)
}

// Update writes the settings of a folder down. Its content stays.
//
// Errors: if the folder doesn't exist; those of the file system, after which the folder has its content, and an update
// may be tried again (broker.Unharmed). Which settings the folder has then is what LookUpdate returns.
func (f *Folders) Update(ctx context.Context, update broker.Update) error {
	there, err := f.Look(ctx, update.Request)
	if err == nil && there != broker.Whole {
		err = wrap(fmt.Errorf("the folder of %v doesn't exist", update.Key))
	}
	if err != nil {
		return err
	}
	to, err := update.To.Text()
	if err != nil {
		return wrap(err)
	}
	if err = f.replaceSettings(update, to); err != nil {
		_ = removeFile(f.settingsPart(update.Key.Instance)) // a deletion removes it, too
	} else {
		err = f.settingsSync.do(ctx)
	}
	if err != nil {
		return broker.WithOutlook(wrap(err), broker.Unharmed())
	}
	return nil
}

// replaceSettings writes the settings of an update, and the label before: nobody writes the label after a crash, once
// the folder has the settings.
func (f *Folders) replaceSettings(update broker.Update, to string) error {
	instance, sold := update.Key.Instance, update.Request
	if err := makeFolder(f.settings()); err != nil {
		return err
	}
	if err := writeFile(f.settingsPart(instance), []byte(to+"\n")); err != nil {
		return err
	}
	sold.PlanID = update.To.PlanID
	if err := f.label(f.whole(instance), sold); err != nil {
		return err
	}
	crash.At("work-half")
	return os.Rename(f.settingsPart(instance), f.settingsOf(instance))
}

// readSettings returns the text of the settings of a folder, or nothing if it was never updated.
func (f *Folders) readSettings(instance osb.ID) (string, error) {
	text, err := os.ReadFile(f.settingsOf(instance))
	if errors.Is(err, fs.ErrNotExist) {
		return "", nil
	}
	return strings.TrimSuffix(string(text), "\n"), err
}

// forgetSettings removes the settings of a folder that is being deleted, and returns once that is on disk: the id of the
// instance may return.
func (f *Folders) forgetSettings(ctx context.Context, instance osb.ID) error {
	isRemoved := false
	for _, path := range []string{f.settingsPart(instance), f.settingsOf(instance)} {
		isThere, err := exists(path)
		if err != nil {
			return err
		}
		if !isThere {
			continue
		}
		if err := removeFile(path); err != nil {
			return err
		}
		isRemoved = true
	}
	if !isRemoved {
		return nil
	}
	return f.settingsSync.do(ctx)
}
