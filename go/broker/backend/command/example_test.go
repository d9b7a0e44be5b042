package command

import (
	"context"
	"encoding/json"
	"fmt"
	"os"
	"os/exec"
	"path/filepath"
	"strings"
	"testing"

	"pippinterm/broker"
	"pippinterm/internal/diff"
	"pippinterm/osb"
)

const (
	examples = "../../../../examples/broker/"
	whole    = "00000000-0000-0000-0000-000000000001"
	bound    = whole + ".00000000-0000-0000-0000-000000000002"
)

// databases is the backend of examples/broker. The commands of fakes, which are texts in sh, are run in place of the
// system's.
func databases(t *testing.T, fakes map[string]string) bindingsWithCredentials {
	t.Helper()
	folder := t.TempDir()
	for name, text := range fakes {
		check(t, os.WriteFile(filepath.Join(folder, name), []byte("#!/bin/sh\n"+text+"\n"), 0o700))
	}
	t.Setenv("PATH", folder+":"+os.Getenv("PATH"))
	backend := diff.Value(New(ctx, examples+"databases", Options{State: t.TempDir()}))(t)
	return backend.(bindingsWithCredentials)
}

// exist fails the test unless the calls that look return what is wanted.
func exist(t *testing.T, backend bindingsWithCredentials, wanted, wantedBinding broker.There) {
	t.Helper()
	there, err := backend.Look(ctx, instance)
	bound, boundErr := backend.LookBinding(ctx, binding)
	if err != nil || boundErr != nil || there != wanted || bound != wantedBinding {
		t.Fatalf("got Look %v, %v, and LookBinding %v, %v, want %v and %v", there, err, bound, boundErr, wanted,
			wantedBinding)
	}
}

func TestExampleLife(t *testing.T) {
	backend := databases(t, nil)
	exist(t, backend, broker.None, broker.None)
	check(t, backend.Create(ctx, instance))
	exist(t, backend, broker.Whole, broker.None)
	for _, name := range []string{whole, whole + "-wal"} { // SQLite has the second beside the database
		check(t, os.WriteFile(backend.state+"/"+name, []byte("of the user"), 0o600))
	}
	check(t, backend.Create(ctx, instance)) // once more, which leaves the content alone
	for _, name := range []string{whole, whole + "-wal"} {
		diff.Equal(t, string(diff.Value(os.ReadFile(backend.state+"/"+name))(t)), "of the user",
			"after another Create, %s", name)
	}
	created := diff.Value(backend.CreateBinding(ctx, binding))(t)
	exist(t, backend, broker.Whole, broker.Whole)
	var credentials struct{ Database, Token string }
	check(t, json.Unmarshal(created, &credentials))
	diff.Equal(t, credentials.Database, whole, "the credentials, %s", created)
	diff.Equal(t, len(credentials.Token), 36, "the credentials, %s", created)
	diff.Equal(t, string(diff.Value(backend.Credentials(ctx, binding))(t)), string(created), "Credentials")
	check(t, backend.DeleteBinding(ctx, binding))
	exist(t, backend, broker.Whole, broker.None)
	again, err := backend.CreateBinding(ctx, binding)
	if err != nil || string(again) == string(created) {
		t.Errorf("a new binding: got %s, %v, want other credentials than the old one's", again, err)
	}
	check(t, backend.DeleteBinding(ctx, binding))
	check(t, backend.Delete(ctx, instance))
	exist(t, backend, broker.None, broker.None)
	diff.Empty(t, resources(t, backend), "left")
}

// resources returns the paths of all resources, whole and in part.
func resources(t *testing.T, backend bindingsWithCredentials) []string {
	t.Helper()
	return diff.Value(filepath.Glob(backend.state + "/[0-9a-f]*"))(t)
}

// Other users of the machine can't read what the program creates.
func TestExampleIsPrivate(t *testing.T) {
	backend := databases(t, nil)
	check(t, backend.Create(ctx, instance))
	diff.Value(backend.CreateBinding(ctx, binding))(t)
	for name, wanted := range map[string]os.FileMode{whole: 0o600, bound: 0o600} {
		t.Run(name, func(t *testing.T) {
			found := diff.Value(os.Stat(backend.state + "/" + name))(t)
			diff.Equal(t, found.Mode().Perm(), wanted, "the mode of %s", name)
		})
	}
}

// A power cut may bring back a part beside the resource.
func TestExampleWithAPartBesideIt(t *testing.T) {
	backend := databases(t, nil)
	check(t, backend.Create(ctx, instance))
	check(t, os.WriteFile(backend.state+"/"+whole+"-part", []byte("deleted"), 0o600))
	exist(t, backend, broker.Whole, broker.None)
	check(t, backend.Delete(ctx, instance))
	diff.Empty(t, resources(t, backend), "left")
}

// If nobody can tell what exists, the program doesn't report that nothing does.
func TestExampleThatCanNotLook(t *testing.T) {
	backend := databases(t, nil)
	exist(t, backend, broker.None, broker.None)
	check(t, os.RemoveAll(backend.state))
	diff.Error(t, diff.Err(backend.Look(ctx, instance)), "Look without its folder")
	backend = databases(t, map[string]string{"find": "exit 1"})
	diff.Error(t, diff.Err(backend.Look(ctx, instance)), "Look")
}

// What exists of others, and under names that contain the id, doesn't count.
func TestExampleWithSimilarNames(t *testing.T) {
	backend := databases(t, nil)
	for _, name := range []string{"x" + whole, whole + "x", bound + "x", "x" + bound, whole + ".x-part"} {
		check(t, os.Mkdir(backend.state+"/"+name, 0o700))
	}
	exist(t, backend, broker.None, broker.None)
	check(t, os.Mkdir(backend.state+"/"+bound+"-part", 0o700))
	exist(t, backend, broker.None, broker.Part)
}

func TestExampleRejectsOtherCalls(t *testing.T) {
	backend := databases(t, nil)
	var run exit
	err := backend.run(ctx, "update", nil, names(instance.Key), func(it exit) error { run = it; return nil })
	check(t, err)
	diff.Equal(t, run.exit.ExitStatus(), statusUnsupported, "the program ended, %s", run.how())
}

func TestExampleCatalogue(t *testing.T) {
	document := diff.Value(os.ReadFile(examples + "own-catalogue.json"))(t)
	check(t, osb.CheckCatalogue(document, osb.Endpoints{Bindings: true, FetchingBindings: true}))
	for name, read := range map[string]func([]byte) ([]osb.Plan, error){
		"instances": osb.CataloguePlans, "bindings": osb.BindingModes,
	} {
		t.Run(name, func(t *testing.T) {
			plans := diff.Value(read(document))(t)
			var modes []bool
			for _, plan := range plans {
				modes = append(modes, plan.IsAsynchronous)
			}
			diff.Check(t, modes, []bool{false, true}, "which plans of %s are asynchronous", name)
		})
	}
}

// Each call returns once what it did would outlive a power cut, and a power cut before leaves what can be looked at.
func TestExampleOutlivesAPowerCut(t *testing.T) {
	const list = `list() { echo "names $(find . -maxdepth 1 -name '[0-9a-f]*' -printf '` + printed + `')" >>.trace; }; list
`
	fakes := map[string]string{}
	for name, then := range map[string]string{"mv": "list", "rm": "list", "sync": `echo "sync $*" >>.trace`} {
		path := diff.Value(exec.LookPath(name))(t)
		fakes[name] = list + path + ` "$@" && ` + then
	}
	backend := databases(t, fakes)
	isDurable := func(resource string, call func() error) {
		t.Helper()
		disk := newDisk(t, backend.state, resource)
		check(t, call())
		disk.trace()
		disk.isWritten()
	}
	isDurable(whole, func() error { return backend.Create(ctx, instance) })
	for _, name := range []string{whole, whole + "-wal", whole + "-shm"} {
		check(t, os.WriteFile(backend.state+"/"+name, []byte("of the user"), 0o600))
	}
	isDurable(bound, func() error { _, err := backend.CreateBinding(ctx, binding); return err })
	isDurable(bound, func() error { return backend.DeleteBinding(ctx, binding) })
	isDurable(whole, func() error { return backend.Delete(ctx, instance) })
	diff.Empty(t, resources(t, backend), "left")
}

// printed is what find prints of each file for a listing.
const printed = "%f=%i:%s:%T@ "

// A listing has the files that exist, each with its inode, length and time of change. A file that was written again is
// another one.
type listing map[string]string

// A disk is what is known to be on disk while a call runs. After a power cut, each name may be as in any of since.
type disk struct {
	*testing.T
	state, resource string
	beside          []string        // the files that belong to the resource, and have its content too
	synced          map[string]bool // files whose content is on disk
	since           []listing       // the names at the last sync of the folder, and each later time
}

// newDisk returns the disk before a call, and begins a new trace. All that exists is on disk.
func newDisk(t *testing.T, state, resource string) *disk {
	d := &disk{T: t, state: state, resource: resource, synced: map[string]bool{}}
	check(t, os.WriteFile(state+"/.trace", nil, 0o600))
	d.since = []listing{d.now()}
	for name, file := range d.now() {
		d.synced[file] = true
		if strings.HasPrefix(name, resource+"-") {
			d.beside = append(d.beside, name)
		}
	}
	return d
}

// now returns the names in the folder.
func (d *disk) now() listing {
	d.Helper()
	find := exec.Command("find", ".", "-maxdepth", "1", "-name", "[0-9a-f]*", "-printf", printed)
	find.Dir = d.state
	out := diff.Value(find.Output())(d.T)
	return namesIn(string(out))
}

func namesIn(text string) listing {
	found := listing{}
	for _, word := range strings.Fields(text) {
		name, file, _ := strings.Cut(word, "=")
		found[name] = file
	}
	return found
}

// trace goes through the commands of the call, and looks at what a power cut would leave after each.
func (d *disk) trace() {
	d.Helper()
	text := diff.Value(os.ReadFile(d.state + "/.trace"))(d.T)
	for _, line := range strings.Split(strings.TrimSpace(string(text)), "\n") {
		command, rest, _ := strings.Cut(line, " ")
		last := d.since[len(d.since)-1]
		if command == "names" {
			d.since = append(d.since, namesIn(rest))
		} else {
			for _, path := range strings.Fields(rest) {
				if path == "." {
					d.since = []listing{last}
				} else {
					d.synced[last[path]] = true
				}
			}
		}
		d.cut(line)
	}
}

// cut fails if the resource may have its name after a power cut now, and not its content.
func (d *disk) cut(line string) {
	d.Helper()
	for _, change := range d.since {
		file, isNamed := change[d.resource]
		if !isNamed {
			continue
		}
		if isEmpty := strings.Contains(file, ":0:"); !isEmpty && !d.synced[file] {
			d.Errorf("after %q: got %s, which may have its name alone, want its content first", line, d.resource)
		}
		for _, name := range d.beside {
			for _, other := range d.since {
				if _, exists := other[name]; !exists {
					d.Errorf("after %q: got %s, which may exist alone, want %s first", line, d.resource, name)
				}
			}
		}
	}
}

// isWritten fails if what exists now isn't on disk.
func (d *disk) isWritten() {
	d.Helper()
	now := d.now()
	for _, change := range d.since {
		diff.Check(d, change, now, "what is on disk")
	}
	if file, exists := now[d.resource]; exists && !d.synced[file] {
		d.Errorf("got the content of %s in memory alone, want it on disk", d.resource)
	}
}

// A program that is killed before any of its commands leaves what can be completed, and what can be deleted.
func TestExampleThatIsKilled(t *testing.T) {
	fakes := map[string]string{}
	for _, name := range []string{"cat", "mv", "rm", "sync"} {
		path := diff.Value(exec.LookPath(name))(t)
		if name == "sync" {
			path = "true"
		}
		fakes[name] = "read left <.left; echo $((left - 1)) >.left\n" +
			"[ $left -ne 1 ] || { kill -9 $PPID; exit 1; }\nexec " + path + ` "$@"`
	}
	backend, left := databases(t, fakes), map[string]int{}
	for at := 1; ; at++ {
		for _, goOn := range []broker.There{broker.Whole, broker.None} {
			request := killedAt(t, backend, at)
			if request == nil {
				if left["instance part"] == 0 || left["binding part"] == 0 || left["instance whole"] == 0 || at < 10 {
					t.Errorf("the program was killed at %d commands: got %v left, want each part at least once", at-1, left)
				}
				return
			}
			there := goOnWith(t, backend, *request, goOn)
			left[map[bool]string{true: "binding ", false: "instance "}[request.Key.IsBinding]+there.String()]++
		}
	}
}

// killedAt begins with nothing, and makes calls until one fails, because the program is killed at one of its commands.
// It returns the request of that call, or nil if there weren't so many commands.
func killedAt(t *testing.T, backend bindingsWithCredentials, at int) *broker.Request {
	t.Helper()
	for _, path := range resources(t, backend) {
		check(t, os.RemoveAll(path))
	}
	check(t, os.WriteFile(backend.state+"/.left", []byte(fmt.Sprintln(at)), 0o600))
	if backend.Create(ctx, instance) != nil {
		return &instance
	}
	if _, err := backend.CreateBinding(ctx, binding); err != nil {
		return &binding
	}
	if backend.DeleteBinding(ctx, binding) != nil {
		return &binding
	}
	if backend.Delete(ctx, instance) != nil {
		return &instance
	}
	return nil
}

// goOnWith completes or deletes what is left of a request, and returns what was left.
func goOnWith(
	t *testing.T, backend bindingsWithCredentials, request broker.Request, wanted broker.There,
) (left broker.There) {
	t.Helper()
	look, create, remove, name := backend.Look, backend.Create, backend.Delete, whole
	if request.Key.IsBinding {
		look, remove, name = backend.LookBinding, backend.DeleteBinding, bound
		create = func(ctx context.Context, request broker.Request) error {
			_, err := backend.CreateBinding(ctx, request)
			return err
		}
	}
	left = diff.Value(look(ctx, request))(t)
	if left != broker.Whole && wanted == broker.Whole {
		check(t, create(ctx, request))
	}
	if left != broker.None && wanted == broker.None {
		check(t, remove(ctx, request))
	}
	diff.Equal(t, diff.Value(look(ctx, request))(t), wanted, "%v was left", left)
	for _, path := range resources(t, backend) {
		if found := filepath.Base(path); found != whole && (found != name || wanted != broker.Whole) {
			t.Errorf("%v was left: got a file %s, want none but the whole one", left, found)
		}
	}
	return left
}
