// Package folders is a backend that sells folders of this machine.
package folders

import (
	"context"
	"crypto/rand"
	"encoding/base64"
	"encoding/hex"
	"encoding/json"
	"errors"
	"fmt"
	"io/fs"
	"os"
	"path/filepath"
	"strings"
	"sync"
	"syscall"
	"unicode/utf8"

	"pippinterm/broker"
	"pippinterm/internal/crash"
	"pippinterm/osb"
)

// Folders are a broker.BindingBackend that sells folders. All of them are in one folder, the top:
//
//	INSTANCE                      a folder that is sold, with what its user puts into it
//	.part-INSTANCE                a folder that is being created or deleted
//	.bindings/INSTANCE-BINDING    the credentials of a binding
//	.settings/INSTANCE            the settings of a folder that was updated
//	.owner, .locks                the name of the store, and the locks
//
// INSTANCE and BINDING are the numbers of the ids, written as GUIDs. What exists is decided by these names alone. A
// folder is created under the name of a part, and renamed once it is complete. It is renamed back before its content
// is deleted. So nothing that a user does inside a folder changes what Look returns, and the folders that version 0.2
// sold are found under the same names.
//
// # Power cuts
//
// What Look returns outlives a power cut once the top was fsynced after the last rename. Create, Delete and Sync
// return only then. Calls that wait for that fsync at the same time share one (together).
//
//   - Create fsyncs the top after it has renamed the part. That writes the name and, before it, the folder itself: a
//     file system with a journal commits changes of names in their order. If the label is a file, the file and its
//     folder are fsynced before the rename. If the label is an attribute, nothing depends on it.
//   - Delete fsyncs the top before it deletes the content. Otherwise the folder could have its old name again after
//     the power cut, with a part of its content. Delete fsyncs the top once more after it has deleted the part.
//   - CreateBinding fsyncs the file before the rename, and the folder .bindings after it. DeleteBinding fsyncs the
//     folder .bindings.
//   - Update does the same with the folder .settings.
type Folders struct {
	top          string
	locks        broker.Locks
	topSync      together
	bindingsSync together
	settingsSync together
	setAttribute func(path, name string, value []byte, flags int) error
	attributes   sync.Map // of folders: soldAs to []byte
}

var (
	_ broker.BindingBackend     = (*Folders)(nil)
	_ broker.UpdateBackend      = (*Folders)(nil)
	_ broker.CredentialsBackend = (*Folders)(nil)
	_ broker.LockBackend        = (*Folders)(nil)
	_ broker.SyncBackend        = (*Folders)(nil)
	_ broker.TiedBackend        = (*Folders)(nil)
)

// New returns the backend whose folders are in top. It creates top with mode 0700, and the folders above it, if they
// don't exist.
//
// The folders are of one machine, on a local file system with a journal, such as ext4, XFS or Btrfs. Any number of
// processes may use the same top.
//
// Errors: those of creating and opening what is in top; and if the path of top isn't UTF-8, because the credentials
// contain it. What was created until then stays.
func New(top string) (*Folders, error) {
	top, err := filepath.Abs(top)
	if err != nil {
		return nil, fmt.Errorf("folders: %w", err)
	}
	if !utf8.ValidString(top) {
		return nil, fmt.Errorf("folders: the path %q isn't UTF-8. Choose another folder", top)
	}
	f := &Folders{top: top, setAttribute: syscall.Setxattr}
	if err := makeFolder(f.bindings()); err != nil {
		return nil, fmt.Errorf("folders: %w", err)
	}
	f.topSync.init(func() error { return syncFolder(top) })
	f.bindingsSync.init(func() error { return syncFolder(f.bindings()) })
	f.settingsSync.init(func() error { return syncFolder(f.settings()) })
	if f.locks, err = broker.NewFileLocks(filepath.Join(top, ".locks")); err != nil {
		return nil, fmt.Errorf("folders: %w", err)
	}
	return f, nil
}

// Locks returns the locks of the folders, which are in the file .locks of the top.
func (f *Folders) Locks() broker.Locks { return f.locks }

// Look returns what exists of an instance: Whole if its folder exists, Part if only the folder of its part does.
//
// Errors: those of lstat. Nobody knows then what exists.
func (f *Folders) Look(_ context.Context, request broker.Request) (broker.There, error) {
	instance := request.Key.Instance
	return look(f.whole(instance), f.part(instance))
}

// look returns Whole if the first path exists, and Part if only the second does.
func look(whole, part string) (broker.There, error) {
	isWhole, err := exists(whole)
	if err != nil {
		return broker.None, wrap(err)
	}
	if isWhole {
		return broker.Whole, nil
	}
	isPart, err := exists(part)
	if err != nil {
		return broker.None, wrap(err)
	}
	if isPart {
		return broker.Part, nil
	}
	return broker.None, nil
}

// Create creates the folder of an instance, with mode 0700 and a label. If the folder exists, Create only makes sure
// that it outlives a power cut.
//
// Errors: those of the file system. What exists then is what Look returns.
func (f *Folders) Create(ctx context.Context, request broker.Request) error {
	instance := request.Key.Instance
	isWhole, err := exists(f.whole(instance))
	if err == nil && !isWhole {
		err = f.create(request)
	}
	if err == nil {
		err = f.topSync.do(ctx)
	}
	return wrap(err)
}

// create creates the folder of an instance that doesn't exist.
func (f *Folders) create(request broker.Request) error {
	part := f.part(request.Key.Instance)
	err := os.Mkdir(part, 0o700)
	if errors.Is(err, fs.ErrExist) { // a worker that was killed has left it
		if err = os.RemoveAll(part); err == nil {
			err = os.Mkdir(part, 0o700)
		}
	}
	if err != nil {
		return err
	}
	if err := f.label(part, request); err != nil {
		return err
	}
	crash.At("work-half")
	return renameFolder(part, f.whole(request.Key.Instance))
}

// Delete deletes the folder of an instance with its content. It doesn't follow symbolic links.
//
// Errors: those of the file system. What exists then is what Look returns.
func (f *Folders) Delete(ctx context.Context, request broker.Request) error {
	instance := request.Key.Instance
	if err := f.retract(instance); err != nil {
		return wrap(err)
	}
	// This is needed for a part as well: a process that was killed may have renamed it without the fsync.
	if err := f.topSync.do(ctx); err != nil {
		return wrap(err)
	}
	crash.At("work-half")
	if err := f.forgetSettings(ctx, instance); err != nil {
		return wrap(err)
	}
	if err := os.RemoveAll(f.part(instance)); err != nil {
		return wrap(err)
	}
	return wrap(f.topSync.do(ctx))
}

// retract makes the folder of an instance a part, if it exists.
func (f *Folders) retract(instance osb.ID) error {
	isWhole, err := exists(f.whole(instance))
	if err != nil || !isWhole {
		return err
	}
	if err := os.RemoveAll(f.part(instance)); err != nil {
		return err
	}
	return renameFolder(f.whole(instance), f.part(instance))
}

// Sync returns once what Look, LookUpdate or LookBinding returns for a request would outlive a power cut.
//
// Errors: those of fsync, and that of ctx.
func (f *Folders) Sync(ctx context.Context, request broker.Request) error {
	if request.Key.IsBinding {
		return wrap(f.bindingsSync.do(ctx))
	}
	wasUpdated, err := exists(f.settingsOf(request.Key.Instance))
	if err == nil && wasUpdated {
		err = f.settingsSync.do(ctx)
	}
	if err == nil {
		err = f.topSync.do(ctx)
	}
	return wrap(err)
}

func (f *Folders) whole(instance osb.ID) string { return f.top + "/" + instance.String() }
func (f *Folders) part(instance osb.ID) string  { return f.top + "/" + partPrefix + instance.String() }
func (f *Folders) bindings() string             { return f.top + "/.bindings" }

const partPrefix = ".part-"

// makeFolder creates a folder, and the folders above it that don't exist, so that they outlive a power cut.
func makeFolder(path string) error {
	err := os.Mkdir(path, 0o700)
	if errors.Is(err, fs.ErrNotExist) {
		if err := makeFolder(filepath.Dir(path)); err != nil {
			return err
		}
		err = os.Mkdir(path, 0o700)
	}
	if errors.Is(err, fs.ErrExist) {
		return nil
	}
	if err != nil {
		return err
	}
	return syncFolder(filepath.Dir(path))
}

// wrap names the package in an error.
func wrap(err error) error {
	if err == nil {
		return nil
	}
	return fmt.Errorf("folders: %w", err)
}

// tokenBytes is the number of random bytes in the token of a binding.
const tokenBytes = 32

// credentials are those of a binding. A server that gives applications access to the folders checks the token: it is
// valid while the file of its binding exists.
type credentials struct {
	Folder string `json:"folder"` // the absolute path of the instance's folder
	Token  string `json:"token"`  // base64url without padding
}

// LookBinding returns what exists of a binding: Whole if the file with its credentials exists, Part if only the file of
// its part does.
//
// Errors: those of lstat. Nobody knows then what exists.
func (f *Folders) LookBinding(_ context.Context, request broker.Request) (broker.There, error) {
	return look(f.binding(request.Key), f.bindingPart(request.Key))
}

// CreateBinding creates the file of a binding, with mode 0600 and a new random token, and returns the credentials: an
// object of JSON with the absolute path of the folder and the token. If the file exists, CreateBinding only makes sure
// that it outlives a power cut, and returns the credentials in it.
//
// Errors: if the folder of the instance doesn't exist; those of the file system. What exists then is what LookBinding
// returns.
func (f *Folders) CreateBinding(ctx context.Context, request broker.Request) (json.RawMessage, error) {
	isWhole, err := exists(f.binding(request.Key))
	if err == nil && !isWhole {
		err = f.createBinding(request.Key)
	}
	if err == nil {
		err = f.bindingsSync.do(ctx)
	}
	if err != nil {
		return nil, wrap(err)
	}
	return f.Credentials(ctx, request)
}

// createBinding creates the file of a binding that doesn't exist.
func (f *Folders) createBinding(key broker.Key) error {
	folder := f.whole(key.Instance)
	isSold, err := exists(folder)
	if err != nil {
		return err
	}
	if !isSold {
		return fmt.Errorf("the folder %s of the instance doesn't exist", folder)
	}
	text, err := newCredentials(folder)
	if err != nil {
		return err
	}
	part := f.bindingPart(key)
	if err := writeFile(part, text); err != nil {
		return err
	}
	crash.At("binding-half")
	return os.Rename(part, f.binding(key))
}

// newCredentials returns a line of JSON with a new token.
func newCredentials(folder string) ([]byte, error) {
	token := make([]byte, tokenBytes)
	if _, err := rand.Read(token); err != nil {
		return nil, err
	}
	text, err := json.Marshal(credentials{Folder: folder, Token: base64.RawURLEncoding.EncodeToString(token)})
	return append(text, '\n'), err
}

// Credentials returns the credentials of a binding that exists, as CreateBinding returned them.
//
// Errors: those of reading the file, for example because it doesn't exist; and if the file isn't JSON.
func (f *Folders) Credentials(_ context.Context, request broker.Request) (json.RawMessage, error) {
	path := f.binding(request.Key)
	text, err := os.ReadFile(path)
	if err != nil {
		return nil, wrap(err)
	}
	if !json.Valid(text) {
		return nil, fmt.Errorf("folders: the file %s isn't JSON", path)
	}
	return text, nil
}

// DeleteBinding deletes the file of a binding, and its part. The folder of the instance and the other bindings stay.
//
// Errors: those of the file system. What exists then is what LookBinding returns.
func (f *Folders) DeleteBinding(ctx context.Context, request broker.Request) error {
	if err := removeFile(f.binding(request.Key)); err != nil {
		return wrap(err)
	}
	crash.At("binding-half")
	if err := removeFile(f.bindingPart(request.Key)); err != nil {
		return wrap(err)
	}
	return wrap(f.bindingsSync.do(ctx))
}

func (f *Folders) binding(key broker.Key) string { return f.bindings() + "/" + bindingName(key) }

func (f *Folders) bindingPart(key broker.Key) string {
	return f.bindings() + "/" + partPrefix + bindingName(key)
}

func bindingName(key broker.Key) string { return key.Instance.String() + "-" + key.Binding.String() }

// Owner returns the name of the store that the folders belong to, or "" if no store has taken them yet.
//
// Errors: those of reading the file .owner.
func (f *Folders) Owner(context.Context) (string, error) {
	text, err := os.ReadFile(f.owner())
	if errors.Is(err, fs.ErrNotExist) {
		return "", nil
	}
	return strings.TrimSuffix(string(text), "\n"), wrap(err)
}

// Own writes down the name of the store that the folders belong to, unless there is one, and returns the name that is
// written down. Once Own returns, the name outlives a power cut. The file .owner is never overwritten.
//
// Errors: if there is no owner, and there are folders of instances already; those of the file system. Nothing was
// changed then, or the name is written down.
func (f *Folders) Own(ctx context.Context, store string) (string, error) {
	// The order matters: a folder that is found after its store has taken the top has an owner.
	hasFolders, err := f.hasFolders()
	if err != nil {
		return "", err
	}
	owner, err := f.Owner(ctx)
	if err != nil {
		return "", err
	}
	if owner == "" && hasFolders {
		return "", fmt.Errorf("folders: %s contains folders of instances, and no file .owner that says whose they are", f.top)
	}
	if err := f.writeOwner(store); err != nil {
		return "", wrap(err)
	}
	if err := syncFolder(f.top); err != nil {
		return "", wrap(err)
	}
	return f.Owner(ctx)
}

// writeOwner writes the file .owner, unless it exists. The file gets its name once its content is on disk.
func (f *Folders) writeOwner(store string) (err error) {
	file, err := os.CreateTemp(f.top, ".owner-")
	if err != nil {
		return err
	}
	defer func() {
		if wrong := os.Remove(file.Name()); err == nil {
			err = wrong
		}
	}()
	_, err = file.WriteString(store + "\n")
	if err == nil {
		err = file.Sync()
	}
	if wrong := file.Close(); err == nil {
		err = wrong
	}
	if err != nil {
		return err
	}
	if err := os.Link(file.Name(), f.owner()); !errors.Is(err, fs.ErrExist) {
		return err
	}
	return nil
}

// hasFolders reports whether the top contains the folder, or the part, of an instance.
func (f *Folders) hasFolders() (bool, error) {
	found, err := os.ReadDir(f.top)
	if err != nil {
		return false, wrap(err)
	}
	for _, entry := range found {
		if _, err := osb.ParseID(strings.TrimPrefix(entry.Name(), partPrefix)); err == nil {
			return true, nil
		}
	}
	return false, nil
}

func (f *Folders) owner() string { return f.top + "/.owner" }

// The label of a folder says what was sold. It is the extended attribute labelAttribute of the folder: the numbers of
// the service and of the plan, each as a GUID in lower case without hyphens, with a blank between them. ext4 keeps an
// attribute of at most 68 bytes in the inode. A longer one would take a block of its own, which each fsync writes.
//
// On a file system without extended attributes, the label is the file labelFile in the folder, as in version 0.2: a
// line of JSON. A file costs one more inode, and two more fsyncs. The label is for people and for tests. What exists is
// decided without it, so a copy of the folders may lose it.
const (
	labelAttribute = "user.osb"
	labelFile      = "instance.json"
)

// soldAs are the ids of a service and a plan, as a catalogue has them.
type soldAs struct{ service, plan string }

// label writes the label of a folder. Whatever keeps it from being an attribute, it becomes a file.
func (f *Folders) label(folder string, request broker.Request) error {
	sold := soldAs{request.ServiceID, request.PlanID}
	attribute, err := f.attributeOf(sold)
	if err != nil {
		return err
	}
	if f.setAttribute(folder, labelAttribute, attribute, 0) == nil {
		return nil
	}
	text, err := sold.textOf(request.Key.Instance)
	if err != nil {
		return err
	}
	if err := writeFile(filepath.Join(folder, labelFile), text); err != nil {
		return err
	}
	return syncFolder(folder)
}

// attributeOf returns the label as an attribute. A catalogue has few plans, so the label of each is kept.
func (f *Folders) attributeOf(sold soldAs) ([]byte, error) {
	if known, isKnown := f.attributes.Load(sold); isKnown {
		return known.([]byte), nil
	}
	service, plan, err := sold.numbers()
	if err != nil {
		return nil, err
	}
	attribute := []byte(hex.EncodeToString(service[:]) + " " + hex.EncodeToString(plan[:]))
	f.attributes.Store(sold, attribute)
	return attribute, nil
}

// textOf returns the label as the text of a file: a line of JSON, with the numbers of all ids.
func (s soldAs) textOf(instance osb.ID) ([]byte, error) {
	service, plan, err := s.numbers()
	if err != nil {
		return nil, err
	}
	text, err := json.Marshal(struct {
		Instance osb.ID `json:"instance"`
		Plan     osb.ID `json:"plan"`
		Service  osb.ID `json:"service"`
	}{instance, plan, service})
	return append(text, '\n'), err
}

func (s soldAs) numbers() (service, plan osb.ID, err error) {
	if service, err = osb.IDOfText(s.service); err != nil {
		return service, plan, err
	}
	plan, err = osb.IDOfText(s.plan)
	return service, plan, err
}
