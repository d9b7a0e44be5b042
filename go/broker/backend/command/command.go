// Package command is a backend that is a program in any language. The broker runs the program once for each call:
//
//	PROGRAM look            what exists of an instance
//	PROGRAM create          create an instance
//	PROGRAM delete          delete an instance
//	PROGRAM look-update     how much of an update of an instance is done
//	PROGRAM update          update an instance
//	PROGRAM details         report the dashboard and the metadata of an instance
//	PROGRAM look-binding    what exists of a binding
//	PROGRAM create-binding  create a binding, and report its credentials
//	PROGRAM delete-binding  delete a binding
//	PROGRAM credentials     report the credentials of a binding that exists
//	PROGRAM capabilities    report which of these calls the program supports; it is run once, at the start
//
// The calls are those of broker.Backend, broker.BindingBackend, broker.CredentialsBackend, broker.UpdateBackend and
// broker.DetailsBackend, and promise the same. In particular, each call may be repeated after a crash, and what create,
// update and delete have done is on disk once the program exits with status 0. The protocol is this project's choice.
//
// # What the program gets
//
// Standard input is the broker.Request, as one object of JSON. Its members are instance_id, binding_id, service_id,
// plan_id, body, originating_identity, request_identity, deletion and details, and besides "state". For look-update and
// update, it is the broker.Update, which has the members from, to and update besides: the settings of before, the new
// ones, and who sent the Update. For capabilities, it has "state" alone. The program needn't read it.
// The working directory is the folder for the program's own use. The environment has these variables, and no others:
//
//	OSB_STATE               the absolute path of that folder, as the member "state"
//	OSB_INSTANCE            the number of the instance's id, as a GUID in lower case; not for capabilities
//	OSB_BINDING             the number of the binding's id, likewise; only for the calls of bindings
//	OSB_NAME                a name for the instance or the binding: OSB_INSTANCE, or OSB_INSTANCE.OSB_BINDING; not for
//	                        capabilities
//	PATH, HOME, LANG, TZ    those of the broker, if they are set
//	BACKEND_..              all variables of the broker whose names begin so
//
// An id is any text of 1 to 255 bytes, and may contain "/" or "..". So name files by OSB_NAME.
//
// # What the program reports
//
// With status 0, standard output has the result, as one object of JSON:
//
//	look, look-binding              {"exists": "none"}, or "part", or "whole"
//	create, delete, delete-binding  nothing, or {}
//	look-update                     {"updated": "none"}, or "part", or "whole": none if the instance has the settings of
//	                                before, whole if it has the new ones, and part for anything else
//	update                          nothing, or {}
//	details                         {"dashboard_url": a URL, "metadata": an object}; each may be missing
//	create-binding, credentials     {"credentials": any JSON}
//	capabilities                    {"bindings": true, "credentials": true, "updates": true, "details": true,
//	                                "secret_parameters": true}; a member that is missing is false. With
//	                                secret_parameters, the broker doesn't send the parameters of an instance back
//
// The exit status says how the call went:
//
//	0                    done
//	3                    rejected, for create and create-binding: nothing of it exists; and for update: nothing was
//	                     changed. Standard output is {"status": 400 or 422, "error": a code for programs,
//	                     "description": a text for the platform}. Without that status, the call has failed
//	4                    failed. Standard output is {"description": a text for the platform}. For update, it may also
//	                     have "instance_usable", whether the instance can still be used, and "update_repeatable",
//	                     whether the same update may succeed later
//	5                    the program doesn't support the call. For capabilities: none of those that it reports
//	any other, a signal  failed
//
// If a call fails by its status, the last line of standard error is in the text of the error. No other output is.
// Whatever the program reports, the broker calls look afterwards, and answers by what exists.
//
// # Time, output and locks
//
// A run ends once the program has exited, and every process that has its standard output or standard error open has
// closed them. The call has failed if the status isn't 0; if standard output isn't the result, or has more than 1 MiB;
// if the run takes longer than Options.Limit; and if the broker stops. If a call has failed, what is left of its
// process group is killed with SIGKILL. So the program must not leave its process group.
//
// The program runs under the command timeout of coreutils, which kills the process group 5 seconds after Options.Limit.
// So a run that hangs ends even if the broker was killed. The command timeout ends with the program.
//
// Descriptor 3 is an open file that has the lock of the instance or the binding. Until every process that has
// inherited the descriptor has exited or closed it, nobody else gets the lock, even if the broker is killed. So at
// most one call of a key runs at a time. The broker's next call of the key waits 5 seconds for that too, and then
// fails. So a broker that looks what exists after a call that failed doesn't do so while a process of that call goes
// on. Two things are the program's part:
//
//   - A process that works for the call must inherit descriptor 3. A child of a shell does. In Python, pass
//     pass_fds=[3] to subprocess. A process that has left the process group, and has closed descriptor 3 and both
//     outputs, isn't noticed.
//   - A process that runs on after the call, such as a server that is sold, must not have descriptor 3 open. In a
//     shell, start it with 3>&-. Otherwise the instance stays locked, and the work of the call stays pending.
//
// The locks are of one machine. So all brokers of a store that have such a backend must run on the same machine, with
// the same Options.State. The file .owner in that folder has the name of the store, so broker.Tie rejects another
// folder for the store, and another store for the folder. It doesn't notice a copy of the folder.
package command

import (
	"context"
	"encoding/json"
	"errors"
	"fmt"
	"io/fs"
	"os"
	"os/exec"
	"path/filepath"
	"strings"
	"syscall"
	"time"
	"unicode/utf8"

	"pippinterm/broker"
)

// DefaultLimit is how long a run may take if Options don't say.
const DefaultLimit = 5 * time.Minute

// grace is how long the processes of a run may take to end after their process group was killed.
const grace = 5 * time.Second

// Options are those of New.
type Options struct {
	// State is the folder for the program's own use. New creates it with mode 0700 if it doesn't exist. The locks are
	// in its file .locks, and the name of the store is in its file .owner. The program must leave both alone.
	State string
	// Limit is how long each run may take. Zero stands for DefaultLimit.
	Limit time.Duration
	// Existing says that State was used before. Then New creates nothing, and fails if the file .locks doesn't exist,
	// for example because a disk isn't mounted.
	Existing bool
}

// A program is run for each call.
type program struct {
	path        string
	timeout     string // the path of the command timeout
	state       string
	environment []string
	limit       time.Duration
	grace       time.Duration
	locks       broker.Locks
}

// New returns the backend that runs a program. program is a path, or a name that is looked up in PATH. New asks the
// program for its capabilities. The backend is a broker.LockBackend and a broker.LateTiedBackend. It is a
// broker.BindingBackend only if the program supports bindings, and a broker.CredentialsBackend only if it supports
// credentials too. Its Abilities say whether the program supports updates and details.
//
// Errors: if the program doesn't exist or isn't executable; if the command timeout of coreutils isn't in PATH; those of
// creating the folder and its file .locks; if Options.Existing is true and the file doesn't exist; if Options.Limit is
// negative; if the program fails to report its capabilities, or reports credentials without bindings, a *CallError. The
// folder may have been created then, unless Options.Existing is true.
func New(ctx context.Context, program string, options Options) (broker.Backend, error) {
	p, err := newProgram(program, options)
	if err != nil {
		return nil, fmt.Errorf("command: %w", err)
	}
	found, err := p.capabilities(ctx)
	if err != nil {
		return nil, err
	}
	all := instances{p, broker.Abilities{
		Bindings: found.Bindings, Updates: found.Updates, Details: found.Details, SecretParameters: found.HasSecrets,
	}}
	switch {
	case found.Credentials:
		return bindingsWithCredentials{bindings{all}}, nil
	case found.Bindings:
		return bindings{all}, nil
	}
	return all, nil
}

func newProgram(name string, options Options) (*program, error) {
	path, err := executable(name)
	if err != nil {
		return nil, err
	}
	timeout, err := executable("timeout")
	if err != nil {
		return nil, fmt.Errorf("%w. Install coreutils", err)
	}
	if options.Limit < 0 {
		return nil, fmt.Errorf("the limit %v is negative", options.Limit)
	}
	if options.Limit == 0 {
		options.Limit = DefaultLimit
	}
	state, err := stateFolder(options)
	if err != nil {
		return nil, err
	}
	locks, err := broker.NewFileLocks(state + lockFile)
	if err != nil {
		return nil, err
	}
	return &program{
		path: path, timeout: timeout, state: state, environment: environment(os.Environ(), state),
		limit: options.Limit, grace: grace, locks: locks,
	}, nil
}

// executable returns the absolute path of a program.
func executable(name string) (string, error) {
	path, err := exec.LookPath(name)
	if err != nil {
		return "", err
	}
	return absolute(path)
}

// absolute returns the absolute path of a path. It isn't filepath.Abs, which removes ".." from the path: behind a
// symbolic link that would be another file.
func absolute(path string) (string, error) {
	if filepath.IsAbs(path) {
		return path, nil
	}
	folder, err := os.Getwd()
	return folder + "/" + path, err
}

// lockFile is the path of the file of the locks, below the folder.
const lockFile = "/.locks"

// stateFolder returns the absolute path of the folder for the program's own use. It creates the folder, or checks that
// the folder was used before.
func stateFolder(options Options) (string, error) {
	if options.State == "" {
		return "", errors.New("no folder is given for the program's own use")
	}
	folder, err := absolute(options.State)
	if err != nil {
		return "", err
	}
	if !utf8.ValidString(folder) {
		return "", fmt.Errorf("the path %q isn't UTF-8. Choose another folder", folder)
	}
	if options.Existing {
		return folder, wasUsed(folder)
	}
	return folder, os.MkdirAll(folder, 0o700)
}

// wasUsed returns an error if the file of the locks doesn't exist in the folder.
func wasUsed(folder string) error {
	_, err := os.Lstat(folder + lockFile)
	if errors.Is(err, fs.ErrNotExist) {
		return fmt.Errorf("%s has no file .locks: no backend has used it. Mount its disk, or check its path: %w",
			folder, err)
	}
	return err
}

// environment returns the variables that the program gets: no password of the broker is among them.
func environment(all []string, state string) []string {
	kept := []string{"OSB_STATE=" + state}
	for _, variable := range all {
		name, _, _ := strings.Cut(variable, "=")
		switch name {
		case "PATH", "HOME", "LANG", "TZ":
			kept = append(kept, variable)
		default:
			if strings.HasPrefix(name, "BACKEND_") {
				kept = append(kept, variable)
			}
		}
	}
	return kept
}

// names returns the variables with the numbers of a key, and with a name that only this key has.
func names(key broker.Key) []string {
	instance := key.Instance.String()
	if !key.IsBinding {
		return []string{"OSB_INSTANCE=" + instance, "OSB_NAME=" + instance}
	}
	binding := key.Binding.String()
	return []string{"OSB_INSTANCE=" + instance, "OSB_BINDING=" + binding, "OSB_NAME=" + instance + "." + binding}
}

// instances is a program that sells no bindings.
type instances struct {
	*program
	can broker.Abilities
}

// bindings is a program that sells bindings, and can't report their credentials later.
type bindings struct{ instances }

// bindingsWithCredentials is a program that supports all calls.
type bindingsWithCredentials struct{ bindings }

var (
	_ broker.LockBackend        = instances{}
	_ broker.UpdateBackend      = instances{}
	_ broker.DetailsBackend     = instances{}
	_ broker.LimitedBackend     = instances{}
	_ broker.BindingBackend     = bindings{}
	_ broker.CredentialsBackend = bindingsWithCredentials{}
)

// Locks returns the locks of the program's calls, which are in the file .locks of Options.State.
func (i instances) Locks() broker.Locks { return i.locks }

// Look runs "PROGRAM look".
func (i instances) Look(ctx context.Context, request broker.Request) (broker.There, error) {
	return i.look(ctx, "look", request)
}

// Create runs "PROGRAM create".
func (i instances) Create(ctx context.Context, request broker.Request) error {
	return i.work(ctx, "create", request)
}

// Delete runs "PROGRAM delete".
func (i instances) Delete(ctx context.Context, request broker.Request) error {
	return i.work(ctx, "delete", request)
}

// Abilities are those that the program has reported.
func (i instances) Abilities() broker.Abilities { return i.can }

// LookUpdate runs "PROGRAM look-update".
func (i instances) LookUpdate(ctx context.Context, update broker.Update) (broker.There, error) {
	var found updateResult
	if err := i.callWith(ctx, "look-update", update.Key, i.inputOf(update), &found); err != nil {
		return broker.Part, err
	}
	return found.there()
}

// Update runs "PROGRAM update".
func (i instances) Update(ctx context.Context, update broker.Update) error {
	return i.callWith(ctx, "update", update.Key, i.inputOf(update), &nothing{})
}

// inputOf is what the program gets of an update.
func (i instances) inputOf(update broker.Update) any {
	return struct {
		broker.Update
		State string `json:"state"`
	}{update, i.state}
}

// Details runs "PROGRAM details".
func (i instances) Details(ctx context.Context, request broker.Request) (broker.Details, error) {
	var found detailsResult
	err := i.call(ctx, "details", request, &found)
	return found.Details, err
}

// LookBinding runs "PROGRAM look-binding".
func (b bindings) LookBinding(ctx context.Context, request broker.Request) (broker.There, error) {
	return b.look(ctx, "look-binding", request)
}

// CreateBinding runs "PROGRAM create-binding".
func (b bindings) CreateBinding(ctx context.Context, request broker.Request) (json.RawMessage, error) {
	return b.credentials(ctx, "create-binding", request)
}

// DeleteBinding runs "PROGRAM delete-binding".
func (b bindings) DeleteBinding(ctx context.Context, request broker.Request) error {
	return b.work(ctx, "delete-binding", request)
}

// Credentials runs "PROGRAM credentials".
func (b bindingsWithCredentials) Credentials(ctx context.Context, request broker.Request) (json.RawMessage, error) {
	return b.credentials(ctx, "credentials", request)
}

// look runs a call that reports what exists.
func (p *program) look(ctx context.Context, call string, request broker.Request) (broker.There, error) {
	var found lookResult
	if err := p.call(ctx, call, request, &found); err != nil {
		return broker.None, err
	}
	return found.there()
}

// work runs a call without a result.
func (p *program) work(ctx context.Context, call string, request broker.Request) error {
	return p.call(ctx, call, request, &nothing{})
}

// credentials runs a call that reports credentials.
func (p *program) credentials(ctx context.Context, call string, request broker.Request) (json.RawMessage, error) {
	var found credentialsResult
	if err := p.call(ctx, call, request, &found); err != nil {
		return nil, err
	}
	return found.Credentials, nil
}

// call runs the program for a request, and reads what it reports.
func (p *program) call(ctx context.Context, call string, request broker.Request, into result) error {
	return p.callWith(ctx, call, request.Key, struct {
		broker.Request
		State string `json:"state"`
	}{request, p.state}, into)
}

// callWith runs the program with something as its input, and reads what it reports.
func (p *program) callWith(ctx context.Context, call string, key broker.Key, with any, into result) error {
	input, err := json.Marshal(with)
	if err == nil {
		err = p.run(ctx, call, input, names(key), func(run exit) error {
			return run.read(into, call == "create" || call == "create-binding" || call == "update")
		})
	}
	return p.wrap(call, err)
}

// capabilities asks the program which calls it supports.
func (p *program) capabilities(ctx context.Context) (found capable, err error) {
	const call = "capabilities"
	input, err := json.Marshal(map[string]string{"state": p.state})
	if err != nil {
		return found, p.wrap(call, err)
	}
	isLasting := false
	err = p.run(ctx, call, input, nil, func(run exit) error {
		if run.exit.ExitStatus() == statusUnsupported {
			return nil
		}
		isLasting = run.isLasting()
		return run.read(&found, false)
	})
	if err == nil {
		return found, nil
	}
	return found, &CallError{Program: p.path, Call: call, Err: err, MayPass: !isLasting && mayPass(err)}
}

// mayPass reports whether the error of a run that hasn't ended by itself may be over later.
func mayPass(err error) bool {
	var number syscall.Errno
	if !errors.As(err, &number) {
		return !errors.Is(err, errTooLong)
	}
	return number == syscall.EAGAIN || number == syscall.ENOMEM || number == syscall.EMFILE || number == syscall.ENFILE
}

// A CallError is the error of a call, with the program and the call.
type CallError struct {
	Program, Call string
	Err           error
	// MayPass is set for capabilities: the program failed, was killed or took too long, so the same call may succeed
	// later. It isn't set if the program can't be run, or reports something wrong.
	MayPass bool
}

// Error returns the text of Err after the program and the call.
func (c *CallError) Error() string {
	return fmt.Sprintf("command: %s %s: %v", c.Program, c.Call, c.Err)
}

// Unwrap returns Err.
func (c *CallError) Unwrap() error { return c.Err }

// wrap names the program and the call in an error.
func (p *program) wrap(call string, err error) error {
	if err == nil {
		return nil
	}
	return &CallError{Program: p.path, Call: call, Err: err}
}

// ownerFile is the path of the file with the name of the store, below the folder.
const ownerFile = "/.owner"

var _ broker.LateTiedBackend = instances{}

// IsLateTied does nothing. Earlier versions kept no name in the folder.
func (*program) IsLateTied() {}

// Owner returns the name of the store whose instances the program has created, or "" if no store has taken the folder
// yet.
//
// Errors: those of reading the file .owner.
func (p *program) Owner(context.Context) (string, error) {
	text, err := os.ReadFile(p.state + ownerFile)
	if errors.Is(err, fs.ErrNotExist) {
		return "", nil
	}
	if err != nil {
		return "", fmt.Errorf("command: %w", err)
	}
	return strings.TrimSuffix(string(text), "\n"), nil
}

// Own writes the name of a store to the file .owner in the folder, unless the file exists, and returns the name that
// the file has. Once Own returns, the name outlives a power cut. Nobody knows which of the other files in the folder
// belong to instances, so Own doesn't look at them.
//
// Errors: those of the file system. The name may have been written then.
func (p *program) Own(ctx context.Context, store string) (string, error) {
	if err := p.writeOwner(store); err != nil {
		return "", fmt.Errorf("command: %w", err)
	}
	return p.Owner(ctx)
}

// writeOwner writes the file .owner, unless it exists. The file gets its name once its content is on disk.
func (p *program) writeOwner(store string) error {
	file, err := os.CreateTemp(p.state, ".owner-")
	if err != nil {
		return err
	}
	defer os.Remove(file.Name())
	err = writeSynced(file, store+"\n")
	if wrong := file.Close(); err == nil {
		err = wrong
	}
	if err != nil {
		return err
	}
	if err := os.Link(file.Name(), p.state+ownerFile); err != nil && !errors.Is(err, fs.ErrExist) {
		return err
	}
	return syncFolder(p.state)
}

// writeSynced writes a text to a file, and returns once it is on disk.
func writeSynced(file *os.File, text string) error {
	if _, err := file.WriteString(text); err != nil {
		return err
	}
	return file.Sync()
}

// syncFolder returns once the names in a folder are on disk.
func syncFolder(folder string) error {
	opened, err := os.Open(folder)
	if err != nil {
		return err
	}
	defer opened.Close()
	return opened.Sync()
}
