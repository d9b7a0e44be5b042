package folders

import (
	"context"
	"encoding/json"
	"io/fs"
	"os"
	"path/filepath"
	"runtime"
	"strings"
	"syscall"
	"testing"

	"pippinterm/broker"
	"pippinterm/internal/diff"
	"pippinterm/internal/waits"
	"pippinterm/osb"
)

var (
	ctx   = context.Background()
	first = requestOf(osb.InstanceKey(osb.MustParseID("00000000-0000-0000-0000-000000000001")))
	other = requestOf(osb.InstanceKey(osb.MustParseID("00000000-0000-0000-0000-000000000002")))
)

func requestOf(key broker.Key) broker.Request {
	return broker.Request{
		Key: key, InstanceID: key.Instance.String(),
		ServiceID: "00000000-0000-0000-0000-0000000000a0", PlanID: "00000000-0000-0000-0000-0000000000b1",
	}
}

func newFolders(t *testing.T, top string) *Folders {
	t.Helper()
	return diff.Value(New(top))(t)
}

var check = diff.Must

// has fails the test unless Look or LookBinding returns what is wanted.
func has(t *testing.T, f *Folders, request broker.Request, wanted broker.There) {
	t.Helper()
	look := f.Look
	if request.Key.IsBinding {
		look = f.LookBinding
	}
	diff.Equal(t, diff.Value(look(ctx, request))(t), wanted, "of %v", request.Key)
}

// names returns the names in a folder.
func names(t *testing.T, folder string) []string {
	t.Helper()
	entries := diff.Value(os.ReadDir(folder))(t)
	found := []string{}
	for _, entry := range entries {
		found = append(found, entry.Name())
	}
	return found
}

func TestLife(t *testing.T) {
	f := newFolders(t, filepath.Join(t.TempDir(), "new", "instances"))
	check(t, f.Create(ctx, other))
	has(t, f, first, broker.None)
	check(t, f.Create(ctx, first))
	has(t, f, first, broker.Whole)
	for _, path := range []string{f.whole(first.Key.Instance), f.top, filepath.Dir(f.top), f.bindings()} {
		found := diff.Value(os.Stat(path))(t)
		diff.Equal(t, found.Mode(), os.ModeDir|0o700, "the mode of %s", path)
	}
	check(t, os.WriteFile(f.whole(first.Key.Instance)+"/data", []byte("of the user"), 0o400))
	check(t, f.Sync(ctx, first))
	check(t, f.Delete(ctx, first))
	has(t, f, first, broker.None)
	has(t, f, other, broker.Whole)
	wanted := []string{".bindings", ".locks", other.Key.Instance.String()}
	diff.Check(t, names(t, f.top), wanted, "what is left")
}

// Whatever a crash or a power cut has left, Create completes it and Delete deletes it, and both can be done again.
func TestWhateverIsLeft(t *testing.T) {
	whole, part := first.Key.Instance.String(), partPrefix+first.Key.Instance.String()
	cases := map[string]struct {
		left  []string // files of the user, with their folders
		there broker.There
	}{
		"nothing":             {nil, broker.None},
		"a part":              {[]string{part + "/within/data"}, broker.Part},
		"a folder":            {[]string{whole + "/data"}, broker.Whole},
		"a folder and a part": {[]string{whole + "/data", part + "/data"}, broker.Whole},
	}
	for name, c := range cases {
		for _, wanted := range []broker.There{broker.Whole, broker.None} {
			t.Run(name+" to "+wanted.String(), func(t *testing.T) {
				f := newFolders(t, t.TempDir())
				for _, path := range c.left {
					leave(t, filepath.Join(f.top, path))
				}
				has(t, f, first, c.there)
				for again := 0; again < 2; again++ {
					if wanted == broker.Whole {
						check(t, f.Create(ctx, first))
					} else {
						check(t, f.Delete(ctx, first))
					}
					has(t, f, first, wanted)
				}
				_, err := os.Stat(f.top + "/" + whole + "/data")
				if c.there == broker.Whole && wanted == broker.Whole && err != nil {
					t.Errorf("a folder that existed: got %v, want it left as it was", err)
				}
				check(t, f.Delete(ctx, first))
				diff.Check(t, names(t, f.top), []string{".bindings", ".locks"}, "what is left")
			})
		}
	}
}

// leave creates a file, and the folders above it.
func leave(t *testing.T, path string) {
	t.Helper()
	check(t, os.MkdirAll(filepath.Dir(path), 0o700))
	check(t, os.WriteFile(path, []byte("x"), 0o600))
}

// A top as version 0.2 has left it: a folder with its file, a part, and the owner.
func TestFoldersOfVersion02(t *testing.T) {
	top := t.TempDir()
	leave(t, top+"/"+first.Key.Instance.String()+"/instance.json")
	leave(t, top+"/"+partPrefix+other.Key.Instance.String()+"/instance.json")
	check(t, os.WriteFile(top+"/.owner", []byte("the store\n"), 0o600))
	check(t, os.WriteFile(top+"/.locks", nil, 0o644))
	f := newFolders(t, top)
	has(t, f, first, broker.Whole)
	has(t, f, other, broker.Part)
	diff.Equal(t, diff.Value(f.Owner(ctx))(t), "the store", "the owner")
	check(t, f.Delete(ctx, first))
	check(t, f.Delete(ctx, other))
	has(t, f, first, broker.None)
	has(t, f, other, broker.None)
}

func TestLinksAreNotFollowed(t *testing.T) {
	f, precious := newFolders(t, t.TempDir()), t.TempDir()
	leave(t, precious+"/data")
	check(t, f.Create(ctx, first))
	check(t, os.Symlink(precious, f.whole(first.Key.Instance)+"/link"))
	check(t, os.Symlink(precious, f.whole(other.Key.Instance)))
	for _, request := range []broker.Request{first, other} {
		has(t, f, request, broker.Whole)
		check(t, f.Delete(ctx, request))
		has(t, f, request, broker.None)
	}
	diff.NoError(t, diff.Err(os.Stat(precious+"/data")), "what a link leads to")
}

// If nobody can tell what exists, Look fails.
func TestNobodyCanLook(t *testing.T) {
	bound := requestOf(osb.BindingKey(first.Key.Instance, other.Key.Instance))
	loop := filepath.Join(t.TempDir(), "loop")
	check(t, os.Symlink(loop, loop))
	f := newFolders(t, t.TempDir())
	f.top = loop
	diff.ErrorIs(t, diff.Err(f.Look(ctx, first)), syscall.ELOOP, "Look")
	diff.ErrorIs(t, diff.Err(f.LookBinding(ctx, bound)), syscall.ELOOP, "LookBinding")
	diff.Error(t, f.Create(ctx, first), "Create")
	diff.Error(t, f.Delete(ctx, first), "Delete")
}

func TestTopsThatNewRejects(t *testing.T) {
	file := filepath.Join(t.TempDir(), "file")
	leave(t, file)
	for name, top := range map[string]string{
		"a file": file, "below a file": file + "/top", "not UTF-8": t.TempDir() + "/\xff",
	} {
		t.Run(name, func(t *testing.T) {
			diff.Error(t, diff.Err(New(top)), "New with %s", name)
		})
	}
}

// What can't be removed is an error, and what doesn't exist isn't.
func TestRemoved(t *testing.T) {
	folder := t.TempDir()
	leave(t, folder+"/full/data")
	diff.Error(t, removeFile(folder+"/full"), "a folder that isn't empty")
	check(t, removeFile(folder+"/none"))
}

// The top may be a symbolic link, and the path relative.
func TestTopBehindALink(t *testing.T) {
	folder := t.TempDir()
	check(t, os.Symlink(t.TempDir(), folder+"/link"))
	before := diff.Value(os.Getwd())(t)
	check(t, os.Chdir(folder))
	defer func() { check(t, os.Chdir(before)) }()
	f := newFolders(t, "link")
	check(t, f.Create(ctx, first))
	has(t, f, first, broker.Whole)
	diff.Equal(t, f.top, folder+"/link", "the top")
	check(t, f.Delete(ctx, first))
}

// Two backends over one top have the same locks.
func TestLocks(t *testing.T) {
	top := t.TempDir()
	lock, err := newFolders(t, top).Locks().TryLock(ctx, first.Key)
	if err != nil || lock == nil {
		t.Fatalf("got the lock %v, %v, want one", lock, err)
	}
	defer lock.Unlock()
	diff.Equal(t, diff.Value(newFolders(t, top).Locks().TryLock(ctx, first.Key))(t) == nil, true, "a second backend")
}

var (
	bound    = requestOf(osb.BindingKey(first.Key.Instance, other.Key.Instance))
	same     = requestOf(osb.BindingKey(other.Key.Instance, other.Key.Instance)) // of another instance
	sameSide = requestOf(osb.BindingKey(first.Key.Instance, first.Key.Instance)) // of the same instance
)

// withInstances returns a backend that has sold both instances.
func withInstances(t *testing.T) *Folders {
	t.Helper()
	f := newFolders(t, t.TempDir())
	check(t, f.Create(ctx, first))
	check(t, f.Create(ctx, other))
	return f
}

// bind creates a binding, and returns its credentials.
func bind(t *testing.T, f *Folders, request broker.Request) (text string, read credentials) {
	t.Helper()
	created := diff.Value(f.CreateBinding(ctx, request))(t)
	has(t, f, request, broker.Whole)
	check(t, json.Unmarshal(created, &read))
	return string(created), read
}

func TestLifeOfABinding(t *testing.T) {
	f := withInstances(t)
	has(t, f, bound, broker.None)
	text, read := bind(t, f, bound)
	diff.Equal(t, read.Folder, f.top+"/"+first.Key.Instance.String(), "the folder")
	diff.Equal(t, len(read.Token), 43, "the token")
	diff.Equal(t, string(diff.Value(f.Credentials(ctx, bound))(t)), text, "Credentials")
	again, _ := bind(t, f, bound)
	diff.Equal(t, again, text, "a second creation")
	found := diff.Value(os.Stat(f.binding(bound.Key)))(t)
	diff.Equal(t, found.Mode(), 0o600, "the mode of the file")
	check(t, f.Sync(ctx, bound))
	check(t, f.DeleteBinding(ctx, bound))
	has(t, f, bound, broker.None)
	diff.ErrorIs(t, diff.Err(f.Credentials(ctx, bound)), fs.ErrNotExist,
		"the credentials of a binding that was deleted")
	_, after := bind(t, f, bound)
	diff.Equal(t, after.Token == read.Token, false, "a new binding has the token of the old one")
}

func TestBindingsLeaveTheRestAlone(t *testing.T) {
	f := withInstances(t)
	_, one := bind(t, f, bound)
	_, two := bind(t, f, same)
	_, three := bind(t, f, sameSide)
	if one.Token == two.Token || one.Token == three.Token || one.Folder == two.Folder {
		t.Errorf("got bindings %v, %v, %v, want credentials of their own", one, two, three)
	}
	leave(t, f.whole(first.Key.Instance)+"/data")
	check(t, f.DeleteBinding(ctx, bound))
	has(t, f, same, broker.Whole)
	has(t, f, sameSide, broker.Whole)
	has(t, f, first, broker.Whole)
	diff.Check(t, names(t, f.whole(first.Key.Instance)), []string{"data"}, "the folder")
}

// Whatever a crash has left of a binding, CreateBinding completes it and DeleteBinding deletes it.
func TestWhateverIsLeftOfABinding(t *testing.T) {
	for name, text := range map[string]string{
		"an empty part": "", "a part": `{"folder":`, "a longer part": strings.Repeat("x", 1000),
	} {
		for _, wanted := range []broker.There{broker.Whole, broker.None} {
			t.Run(name+" to "+wanted.String(), func(t *testing.T) {
				f := withInstances(t)
				check(t, os.WriteFile(f.bindingPart(bound.Key), []byte(text), 0o600))
				has(t, f, bound, broker.Part)
				for again := 0; again < 2; again++ {
					if wanted == broker.Whole {
						bind(t, f, bound)
					} else {
						check(t, f.DeleteBinding(ctx, bound))
					}
					has(t, f, bound, wanted)
				}
				check(t, f.DeleteBinding(ctx, bound))
				diff.Empty(t, names(t, f.bindings()), "left")
			})
		}
	}
}

func TestBindingOfAnInstanceThatDoesNotExist(t *testing.T) {
	f := newFolders(t, t.TempDir())
	diff.Error(t, diff.Err(f.CreateBinding(ctx, bound)), "CreateBinding")
	has(t, f, bound, broker.None)
}

// A symbolic link in the place of a part isn't followed.
func TestLinkInThePlaceOfABinding(t *testing.T) {
	f, precious := withInstances(t), t.TempDir()+"/data"
	leave(t, precious)
	check(t, os.Symlink(precious, f.bindingPart(bound.Key)))
	diff.Error(t, diff.Err(f.CreateBinding(ctx, bound)), "CreateBinding")
	check(t, f.DeleteBinding(ctx, bound))
	bind(t, f, bound)
	diff.Equal(t, string(diff.Value(os.ReadFile(precious))(t)), "x", "")
}

func TestCredentialsThatAreNotJSON(t *testing.T) {
	f := withInstances(t)
	check(t, os.WriteFile(f.binding(bound.Key), []byte(`{"folder":`), 0o600))
	diff.Error(t, diff.Err(f.Credentials(ctx, bound)), "Credentials")
}

// Only once the credentials have their name, the folder of the bindings is written to disk.
func TestOrderOfFsyncsOfABinding(t *testing.T) {
	f := withInstances(t)
	var seen [][]string
	f.bindingsSync.init(func() error { seen = append(seen, names(t, f.bindings())); return nil })
	bind(t, f, bound)
	check(t, f.DeleteBinding(ctx, bound))
	diff.Check(t, seen, [][]string{{bindingName(bound.Key)}, {}}, "what was there at the fsyncs")
}

func TestOwner(t *testing.T) {
	f := newFolders(t, t.TempDir())
	diff.Equal(t, diff.Value(f.Owner(ctx))(t), "", "the owner of a new top")
	for _, store := range []string{"one", "two"} {
		diff.Equal(t, diff.Value(f.Own(ctx, store))(t), "one", "Own(%s)", store)
	}
	check(t, f.Create(ctx, first))
	diff.Equal(t, diff.Value(f.Own(ctx, "two"))(t), "one", "Own with a folder")
	check(t, f.Delete(ctx, first))
	diff.Check(t, names(t, f.top), []string{".bindings", ".locks", ".owner"}, "what is left")
}

func TestFoldersWithoutAnOwner(t *testing.T) {
	for _, name := range []string{first.Key.Instance.String(), partPrefix + first.Key.Instance.String()} {
		t.Run(name, func(t *testing.T) {
			f := newFolders(t, t.TempDir())
			check(t, os.Mkdir(f.top+"/"+name, 0o700))
			diff.ErrorContains(t, diff.Err(f.Own(ctx, "one")), ".owner", "Own with %s", name)
			diff.Equal(t, diff.Value(f.Owner(ctx))(t), "", "the owner with %s", name)
		})
	}
}

// Of many stores that take a top at once, one becomes the owner.
func TestOwnersAtOnce(t *testing.T) {
	f := newFolders(t, t.TempDir())
	stores := strings.Fields("one two three four five six")
	owners := make([]string, len(stores))
	waits.Together(len(stores), func(n int) {
		owner, err := f.Own(ctx, stores[n])
		diff.NoError(t, err, "")
		owners[n] = owner
	})
	for _, owner := range owners {
		if owner == "" || owner != owners[0] {
			t.Fatalf("the owners: got %q, want one", owners)
		}
	}
}

// unlistableFolder returns a folder in which names can be written and looked up, but not listed, and which can't be
// synced. Until the end of the test, this goroutine has the rights of a user who isn't root.
func unlistableFolder(t *testing.T) string {
	t.Helper()
	folder := t.TempDir()
	if os.Geteuid() == 0 {
		const nobody = 65534
		check(t, os.Chown(folder, nobody, nobody))
		for above := filepath.Dir(folder); above != os.TempDir() && above != "/"; above = filepath.Dir(above) {
			check(t, os.Chmod(above, 0o755))
		}
		runtime.LockOSThread()
		_, _, _ = syscall.RawSyscall(syscall.SYS_SETFSUID, nobody, 0, 0) // of this thread
		t.Cleanup(func() {
			_, _, _ = syscall.RawSyscall(syscall.SYS_SETFSUID, 0, 0, 0)
			runtime.UnlockOSThread()
		})
	}
	check(t, os.Chmod(folder, 0o300))
	t.Cleanup(func() { _ = os.Chmod(folder, 0o700) })
	diff.ErrorIs(t, diff.Err(os.ReadDir(folder)), fs.ErrPermission, "a folder that can't be listed")
	return folder
}

// A top that can't be listed may contain folders of another store, so it isn't taken.
func TestOwnerOfATopThatCanNotBeListed(t *testing.T) {
	f := newFolders(t, t.TempDir())
	f.top = unlistableFolder(t)
	diff.ErrorIs(t, diff.Err(f.Own(ctx, "one")), fs.ErrPermission, "")
	diff.Equal(t, diff.Value(f.Owner(ctx))(t), "", "the owner")
}

// A new folder is there after a power cut: the folder that it is in is synced. If that fails, so does New.
func TestNewFoldersAreSynced(t *testing.T) {
	top := filepath.Join(unlistableFolder(t), "top")
	err := diff.Err(New(top))
	diff.ErrorIs(t, err, fs.ErrPermission, "")
	diff.ErrorContains(t, err, filepath.Dir(top), "the error of syncing")
}

func TestLabel(t *testing.T) {
	t.Run("an attribute", func(t *testing.T) {
		wanted := "000000000000000000000000000000a0 000000000000000000000000000000b1"
		f := newFolders(t, t.TempDir())
		if syscall.Setxattr(f.top, labelAttribute, []byte("x"), 0) != nil {
			t.Skip("the file system of the temporary folder has no extended attributes")
		}
		check(t, f.Create(ctx, first))
		var text [256]byte
		n, err := syscall.Getxattr(f.whole(first.Key.Instance), labelAttribute, text[:])
		diff.NoError(t, err, "the attribute")
		diff.Equal(t, string(text[:n]), wanted, "the attribute")
		diff.Empty(t, names(t, f.whole(first.Key.Instance)), "the folder")
	})
	t.Run("a file", func(t *testing.T) {
		wanted := `{"instance":"` + first.Key.Instance.String() + `","plan":"` + first.PlanID +
			`","service":"` + first.ServiceID + `"}` + "\n"
		f := newFolders(t, t.TempDir())
		f.setAttribute = func(string, string, []byte, int) error { return syscall.ENOTSUP }
		check(t, f.Create(ctx, first))
		diff.Equal(t, string(diff.Value(os.ReadFile(f.whole(first.Key.Instance)+"/instance.json"))(t)), wanted,
			"the file")
		has(t, f, first, broker.Whole)
	})
}

// An id that isn't a GUID stands for its number.
func TestLabelHasNumbers(t *testing.T) {
	sold := soldAs{"postgres", "small"}
	text := diff.Value(sold.textOf(first.Key.Instance))(t)
	var label map[string]string
	check(t, json.Unmarshal(text, &label))
	wanted := ""
	for _, attribute := range [][2]string{{"service", "postgres"}, {"plan", "small"}} {
		number := diff.Value(osb.IDOfText(attribute[1]))(t)
		diff.Equal(t, label[attribute[0]], number.String(), "%s", attribute[0])
		wanted += " " + strings.ReplaceAll(number.String(), "-", "")
	}
	f := newFolders(t, t.TempDir())
	for again := 0; again < 2; again++ {
		diff.Equal(t, " "+string(diff.Value(f.attributeOf(sold))(t)), wanted, "the attribute")
	}
}
