// Package servers has the servers that a storm needs besides the two programs: a PostgreSQL server of the storm's
// own, which is killed and paused, a database of the storm's own at any server, and HAProxy in front of the brokers.
package servers

import (
	"context"
	"crypto/rand"
	"database/sql"
	"encoding/hex"
	"errors"
	"fmt"
	"net"
	"net/url"
	"os"
	"os/exec"
	"os/user"
	"path/filepath"
	"strconv"
	"strings"
	"sync"
	"syscall"
	"time"

	"pippinterm/internal/child"
	"pippinterm/internal/pg"
	"pippinterm/storm/fault"
)

const (
	superuser    = "osb"
	startsWithin = 3 * time.Minute // after a kill, the server waits for processes that are left, and reads its log
	startAgain   = 100 * time.Millisecond
)

// settings are those of the server. A commit is on disk once it is reported.
var settings = []string{"fsync=on", "synchronous_commit=on", "max_connections=300", "listen_addresses=127.0.0.1"}

// errNotInstalled reports that the programs of PostgreSQL aren't installed.
var errNotInstalled = errors.New("PostgreSQL isn't installed. On Debian, install the package postgresql")

// A Postgres is a PostgreSQL server of a storm's own. Any number of goroutines use it, but one at a time calls Kill,
// Pause and Close.
type Postgres struct {
	programs, folder, log string
	password              string
	port                  int

	process *exec.Cmd
	ended   <-chan error

	mutex         sync.Mutex
	kills, pauses int
}

// StartPostgres starts a new server over a new folder in the folder. If this process runs as root, the server runs as
// the user postgres. Close ends the server, and deletes the folder.
//
// Errors: PostgreSQL isn't installed; what the server has logged.
func StartPostgres(ctx context.Context, folder string) (p *Postgres, err error) {
	p = &Postgres{}
	if p.programs, err = programs(); err != nil {
		return nil, err
	}
	if p.port, err = portForLater(); err != nil {
		return nil, err
	}
	if p.folder, err = os.MkdirTemp(folder, "osb-storm-postgresql-"); err != nil {
		return nil, err
	}
	p.log = filepath.Join(p.folder, "log")
	defer func() {
		if err != nil {
			_ = p.Close()
		}
	}()
	if err := p.create(); err != nil {
		return nil, err
	}
	return p, p.start(ctx)
}

// programs returns the folder with the server's programs: on the PATH, or the newest that Debian has installed.
func programs() (string, error) {
	if found, err := exec.LookPath("initdb"); err == nil {
		if found, err = filepath.EvalSymlinks(found); err == nil {
			return filepath.Dir(found), nil
		}
	}
	installed, err := filepath.Glob("/usr/lib/postgresql/*/bin/initdb")
	if err != nil || len(installed) == 0 {
		return "", errNotInstalled
	}
	newest, latest := "", -1.0
	for _, path := range installed {
		version, err := strconv.ParseFloat(strings.Split(path, "/")[4], 64)
		if err == nil && version > latest {
			newest, latest = filepath.Dir(path), version
		}
	}
	return newest, nil
}

// portForLater returns a port below those that the system gives to connections, of which one could take it while the
// server is away.
func portForLater() (int, error) {
	const first, after = 10000, 20000
	for port := first + os.Getpid()%(after-first-1000); port < after; port++ {
		listener, err := net.Listen("tcp", fmt.Sprintf("127.0.0.1:%d", port))
		if err == nil {
			return port, listener.Close()
		}
	}
	return 0, errors.New("no port is free for PostgreSQL")
}

// URL returns the URL of a database, with the password of the superuser.
func (p *Postgres) URL(database string) string {
	at := url.URL{
		Scheme: "postgresql", User: url.UserPassword(superuser, p.password), Host: fmt.Sprintf("127.0.0.1:%d", p.port),
		Path: "/" + database,
	}
	return at.String()
}

// create creates the files of the server. Each of its users needs a password to log in.
func (p *Postgres) create() error {
	secret := make([]byte, 16)
	if _, err := rand.Read(secret); err != nil {
		return fmt.Errorf("no random password: %w", err)
	}
	p.password = hex.EncodeToString(secret)
	file := filepath.Join(p.folder, "password")
	if err := os.WriteFile(file, []byte(p.password), 0o600); err != nil {
		return err
	}
	for _, path := range []string{p.folder, file} {
		if err := p.give(path); err != nil {
			return err
		}
	}
	ended, err := p.begin("initdb", "--username="+superuser, "--pwfile="+file, "--auth=scram-sha-256", "--no-locale",
		"--encoding=UTF8")
	if err == nil {
		err = <-ended
	}
	if err != nil {
		return fmt.Errorf("initdb: %w: %s", err, LastOf(p.log, 2000))
	}
	return nil
}

// give gives a file to the user that runs the server.
func (p *Postgres) give(path string) error {
	owner, err := ownerOfServer()
	if err != nil || owner == nil {
		return err
	}
	return os.Chown(path, int(owner.Uid), int(owner.Gid))
}

// ownerOfServer returns the user postgres if this process runs as root, as which no server runs, and otherwise nil.
func ownerOfServer() (*syscall.Credential, error) {
	if os.Getuid() != 0 {
		return nil, nil
	}
	known, err := user.Lookup("postgres")
	if err != nil {
		return nil, fmt.Errorf("as root, PostgreSQL is run as the user postgres: %w", err)
	}
	uid, err := strconv.ParseUint(known.Uid, 10, 32)
	if err != nil {
		return nil, err
	}
	gid, err := strconv.ParseUint(known.Gid, 10, 32)
	return &syscall.Credential{Uid: uint32(uid), Gid: uint32(gid)}, err
}

// begin starts a program over the files of the server.
func (p *Postgres) begin(program string, words ...string) (ended <-chan error, err error) {
	owner, err := ownerOfServer()
	if err != nil {
		return nil, err
	}
	log, err := os.OpenFile(p.log, os.O_WRONLY|os.O_CREATE|os.O_APPEND, 0o600)
	if err != nil {
		return nil, err
	}
	defer log.Close()
	data := filepath.Join(p.folder, "data")
	p.process = exec.Command(filepath.Join(p.programs, program), append([]string{"-D", data}, words...)...)
	p.process.Stdout, p.process.Stderr, p.process.Dir = log, log, p.folder
	p.process.SysProcAttr = &syscall.SysProcAttr{Credential: owner}
	return child.Start(p.process, syscall.SIGQUIT)
}

func (p *Postgres) start(ctx context.Context) error {
	words := []string{"-p", strconv.Itoa(p.port), "-k", p.folder}
	for _, setting := range append(p.laterSettings(), settings...) {
		words = append(words, "-c", setting)
	}
	ctx, cancel := context.WithTimeout(ctx, startsWithin)
	defer cancel()
	for {
		if !p.runs() { // processes of the last one may be left, and then it ends at once
			var err error
			if p.ended, err = p.begin("postgres", words...); err != nil {
				return err
			}
		}
		if execute(ctx, p.URL("postgres"), "SELECT 1") == nil {
			return nil
		}
		if !fault.Sleep(ctx, startAgain) {
			return fmt.Errorf("PostgreSQL doesn't start: %s", LastOf(p.log, 2000))
		}
	}
}

// laterSettings returns the settings that only later versions have. After a kill, the server syncs all of its files
// before it starts. With many databases that takes minutes file by file, and seconds at once.
func (p *Postgres) laterSettings() []string {
	const since = 14
	printed, err := exec.Command(filepath.Join(p.programs, "postgres"), "--version").Output()
	if err != nil {
		return nil
	}
	var version float64
	if _, err := fmt.Sscanf(string(printed), "postgres (PostgreSQL) %g", &version); err != nil || version < since {
		return nil
	}
	return []string{"recovery_init_sync_method=syncfs"}
}

func (p *Postgres) runs() bool {
	if p.ended == nil {
		return false
	}
	select {
	case <-p.ended:
		return false
	default:
		return true
	}
}

// Kill kills the server, and starts it again after a time: the first of its processes alone with SIGKILL, and the next
// time all of them. If ctx is done, it is started again at once.
//
// Errors: it doesn't start.
func (p *Postgres) Kill(ctx context.Context, after time.Duration) error {
	p.mutex.Lock()
	signal := []syscall.Signal{syscall.SIGKILL, syscall.SIGQUIT}[p.kills%2]
	p.kills++
	p.mutex.Unlock()
	_ = p.process.Process.Signal(signal)
	<-p.ended
	fault.Sleep(ctx, after)
	return p.start(context.Background())
}

// Pause stops all processes of the server for a time, or until ctx is done. Its sessions go on after that.
func (p *Postgres) Pause(ctx context.Context, rest time.Duration) {
	first := p.process.Process.Pid
	stopped := stop(first) // from now on it starts no others
	for _, pid := range children(first) {
		stopped = append(stopped, stop(pid)...)
	}
	fault.Sleep(ctx, rest)
	for _, process := range stopped { // one that was killed while it was stopped ends once others go on
		_ = syscall.Kill(process, syscall.SIGCONT)
	}
	p.mutex.Lock()
	defer p.mutex.Unlock()
	p.pauses++
}

// stop stops a process, and returns its number, or nothing if it has ended.
func stop(pid int) []int {
	if syscall.Kill(pid, syscall.SIGSTOP) != nil {
		return nil
	}
	return []int{pid}
}

func children(parent int) (pids []int) {
	text, err := os.ReadFile(fmt.Sprintf("/proc/%d/task/%d/children", parent, parent))
	if err != nil {
		return nil
	}
	for _, word := range strings.Fields(string(text)) {
		if pid, err := strconv.Atoi(word); err == nil {
			pids = append(pids, pid)
		}
	}
	return pids
}

// Counts returns how often the server was killed and paused.
func (p *Postgres) Counts() (kills, pauses int) {
	p.mutex.Lock()
	defer p.mutex.Unlock()
	return p.kills, p.pauses
}

// Close ends the server, and deletes its files.
func (p *Postgres) Close() error {
	if p.runs() {
		_ = p.process.Process.Signal(syscall.SIGINT)
		<-p.ended
	}
	return os.RemoveAll(p.folder)
}

// LastOf returns the end of a log: at most so many bytes.
func LastOf(log string, most int) string {
	text, err := os.ReadFile(log)
	if err != nil {
		return err.Error()
	}
	if len(text) > most {
		text = text[len(text)-most:]
	}
	return string(text)
}

// sessionName is the application_name of the sessions that a storm ends at random.
const sessionName = "storm"

// A Database is a new database of a storm's own, in which nothing is. Close drops it.
type Database struct {
	server, name string // the URL of the database in which the new one is created, and the name of the new one
	url          string
	db           *sql.DB // at the new one
}

// Create creates a database of this name with the rights of a URL.
//
// Errors: those of the server, and pg.ErrBadAddress.
func Create(ctx context.Context, server, name string) (*Database, error) {
	if err := execute(ctx, server, "CREATE DATABASE "+name); err != nil {
		return nil, fmt.Errorf("the database of the storm can't be created: %w", err)
	}
	d := &Database{server: server, name: name}
	var err error
	if d.url, err = In(server, name); err == nil {
		d.db, err = open(d.url)
	}
	if err != nil {
		_ = d.Close()
		return nil, err
	}
	return d, nil
}

// In returns the URL of another database of the same server.
func In(address, database string) (string, error) {
	parsed, err := url.Parse(address)
	if err != nil {
		return "", pg.ErrBadAddress
	}
	asked := parsed.Query()
	asked.Del("dbname")
	parsed.Path, parsed.RawQuery = "/"+database, asked.Encode()
	return parsed.String(), nil
}

// URL returns where the database is, with the password if the URL of the server has one.
func (d *Database) URL() string { return d.url }

// DB returns connections to the database. They are closed with the Database.
func (d *Database) DB() *sql.DB { return d.db }

// ForPrograms returns the URL for the programs of a storm, without a password, and the variables of their environment
// that go with the URL. EndSession ends their sessions.
func (d *Database) ForPrograms() (address string, environment []string) {
	parsed, err := url.Parse(d.url)
	if err != nil {
		panic(err) // In has written it
	}
	asked := parsed.Query()
	password, isGiven := parsed.User.Password()
	if asked.Has("password") {
		password, isGiven = asked.Get("password"), true
		asked.Del("password")
	}
	if isGiven {
		environment = []string{"PGPASSWORD=" + password}
		parsed.User = url.User(parsed.User.Username())
	}
	asked.Set("application_name", sessionName)
	parsed.RawQuery = asked.Encode()
	return parsed.String(), environment
}

// A busy session is the first choice: then a commit breaks off of which nobody knows the result.
const endSession = `SELECT pg_terminate_backend(pid) FROM pg_stat_activity WHERE application_name = $1
AND datname = current_database() ORDER BY state = 'idle', random() LIMIT 1`

// EndSession ends one of the sessions that the programs have, and reports whether there was one.
func (d *Database) EndSession(ctx context.Context) (isEnded bool, err error) {
	err = d.db.QueryRowContext(ctx, endSession, sessionName).Scan(&isEnded)
	if err == sql.ErrNoRows {
		err = nil
	}
	return isEnded, err
}

// Close drops the database, with all sessions.
func (d *Database) Close() error {
	if d.db != nil {
		_ = pg.Close(d.db)
	}
	ctx, cancel := context.WithTimeout(context.Background(), time.Minute)
	defer cancel()
	return execute(ctx, d.server, "DROP DATABASE IF EXISTS "+d.name+" WITH (FORCE)")
}

func open(address string) (*sql.DB, error) {
	return pg.Open(address, pg.Options{
		Most: 4, Lock: 10 * time.Second, Statement: time.Minute, Idle: time.Minute,
	})
}

func execute(ctx context.Context, address, statement string) error {
	db, err := open(address)
	if err != nil {
		return err
	}
	defer pg.Close(db)
	_, err = db.ExecContext(ctx, statement)
	return err
}
