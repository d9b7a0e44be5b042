package pg

import (
	"context"
	"crypto/x509"
	"database/sql"
	"database/sql/driver"
	"errors"
	"fmt"
	"io"
	"io/fs"
	"net"
	"runtime/debug"
	"time"

	"github.com/lib/pq"
)

// Discard closes the connection itself, with what the server's session holds, in place of giving it back.
func Discard(conn *sql.Conn) {
	_ = conn.Raw(func(any) error { return driver.ErrBadConn })
	_ = conn.Close() // sql.ErrConnDone: it is closed already
}

// Transaction calls do in a transaction (READ COMMITTED) on a connection, and commits it if do returns true. If
// do returns false or an error, or panics, or if the context is cancelled before the COMMIT, the transaction is
// rolled back. Transaction returns nil only if the server has confirmed the COMMIT, or the transaction was to be rolled
// back.
//
// The COMMIT itself isn't cancelled with the context. With synchronous replication a server that is asked to cancel a
// COMMIT stops waiting for its standby, and reports a commit that the standby doesn't have, with no more than a
// warning. So a warning to a COMMIT is ErrUnknownCommit too.
//
// Errors: ErrNotBegun, ErrUnknownCommit, the context's, those of do, a panic of do as an error, and the server's.
// With any but ErrUnknownCommit nothing was changed. After an error with which the connection can't be used any more it
// is closed.
func Transaction(ctx context.Context, conn *sql.Conn, do func(*sql.Tx) (isToCommit bool, err error)) error {
	warned, err := watch(conn)
	if err != nil {
		Discard(conn)
		return fmt.Errorf("%w: %v", ErrNotBegun, err)
	}
	tx, err := conn.BeginTx(endlessUntil(time.Now().Add(Answer)), &sql.TxOptions{Isolation: sql.LevelReadCommitted})
	if err != nil {
		Discard(conn)
		return fmt.Errorf("%w: %v", ErrNotBegun, err)
	}
	isOver := false
	defer func() {
		if !isOver && tx.Rollback() != nil {
			Discard(conn)
		}
	}()
	isToCommit, err := safely(func() (bool, error) { return do(tx) })
	if err == nil || IsLost(err) || IsCode(err, QueryCanceled) {
		err = either(ctx.Err(), err)
	}
	if err != nil || !isToCommit {
		return err
	}
	isOver = true
	*warned = nil
	if err = tx.Commit(); err == nil && *warned == nil {
		return nil
	}
	return ofCommit(conn, err, *warned)
}

// ofCommit is the error of a COMMIT that was answered with an error or a warning.
func ofCommit(conn *sql.Conn, err, warning error) error {
	if err == nil {
		return fmt.Errorf("%w: the COMMIT was answered with a warning: %v", ErrUnknownCommit, warning)
	}
	var failed *pq.Error
	if errors.As(err, &failed) || errors.Is(err, pq.ErrInFailedTransaction) {
		return err // the server has rolled back, and said so
	}
	Discard(conn)
	return fmt.Errorf("%w: the answer to the COMMIT was lost: %v", ErrUnknownCommit, err)
}

// successful is the code of a notice that is no warning.
const successful = "00000"

// watch returns where the last warning of the server stands.
func watch(conn *sql.Conn) (*error, error) {
	var warned error
	err := conn.Raw(func(of any) error {
		on, ok := of.(*connection)
		if !ok {
			return fmt.Errorf("%T isn't a connection of Open", of)
		}
		pq.SetNoticeHandler(on.pqConn, func(notice *pq.Error) {
			if notice.Code != successful { // the severity is in the server's language
				warned = notice
			}
		})
		return nil
	})
	return &warned, err
}

// either is the first error that isn't nil.
func either(first, second error) error {
	if first != nil {
		return first
	}
	return second
}

// safely makes an error of a panic.
func safely(call func() (bool, error)) (is bool, err error) {
	defer func() {
		if what := recover(); what != nil {
			is, err = false, fmt.Errorf("panic: %v\n%s", what, debug.Stack())
		}
	}()
	return call()
}

// rows are rows of lib/pq whose values stay as they were read. lib/pq returns a value of some types, such as json, as
// bytes in the buffer of the connection. If the context ends while Scan reads such a value, database/sql closes the
// rows meanwhile, for which lib/pq reads the rest of the answer into that buffer: Scan could return bytes of other
// rows.
type rows struct{ driver.Rows }

// keep returns such rows.
func keep(of driver.Rows, err error) (driver.Rows, error) {
	if err != nil {
		return nil, err
	}
	return rows{of}, nil
}

func (r rows) Next(values []driver.Value) error {
	if err := r.Rows.Next(values); err != nil {
		return err
	}
	for at, value := range values {
		if shared, ok := value.([]byte); ok {
			values[at] = append(make([]byte, 0, len(shared)), shared...)
		}
	}
	return nil
}

// Codes of errors of the server (PostgreSQL's documentation, appendix "PostgreSQL Error Codes").
const (
	InvalidParameterValue = "22023"
	ReadOnlyTransaction   = "25006" // among others: the server is a standby
	InvalidAuthorization  = "28000"
	InvalidPassword       = "28P01"
	InvalidCatalogName    = "3D000" // the name of a database
	InvalidSchemaName     = "3F000"
	SerializationFailure  = "40001"
	DeadlockDetected      = "40P01"
	InsufficientPrivilege = "42501"
	UndefinedObject       = "42704"
	DependentObjects      = "2BP01"
	TooManyConnections    = "53300"
	ObjectInUse           = "55006"
	LockNotAvailable      = "55P03"
	QueryCanceled         = "57014"
	InternalError         = "XX000" // among others: two sessions have changed a row of a catalogue at once
)

// Classes of errors of the server, by the first two characters of the code.
const (
	classConnection   = "08"
	classResources    = "53"
	classIntervention = "57" // an administrator, a limit of time, or a server that starts or stops
)

var (
	// ErrNotBegun reports that a transaction couldn't begin on a connection, for example because the server had closed
	// it. Nothing was done.
	ErrNotBegun = errors.New("the transaction couldn't begin")
	// ErrUnknownCommit reports that a transaction may have been committed or not, or that its commit may not outlive
	// the loss of the server.
	ErrUnknownCommit = errors.New("nobody knows whether the transaction was committed")
	// ErrNotDurable reports that the setting synchronous_commit is off.
	ErrNotDurable = errors.New("synchronous_commit is off, so a commit might not outlive a power cut")
)

// IsCode reports whether an error is the server's, with one of these codes.
func IsCode(err error, codes ...string) bool {
	var failed *pq.Error
	if !errors.As(err, &failed) {
		return false
	}
	for _, code := range codes {
		if string(failed.Code) == code {
			return true
		}
	}
	return false
}

// IsConflict reports whether the server has undone a transaction because of another one, so that it can be tried again.
func IsConflict(err error) bool { return IsCode(err, SerializationFailure, DeadlockDetected) }

// IsLost reports whether an error says that the connection is gone. The server may still run the last statement.
func IsLost(err error) bool {
	var failed *net.OpError
	return errors.Is(err, driver.ErrBadConn) || errors.Is(err, io.EOF) || errors.Is(err, io.ErrUnexpectedEOF) ||
		errors.As(err, &failed)
}

// IsAway reports whether an error says that the server can't be used now, and may be back soon: the connection failed,
// or the server starts, stops, is a standby, has no connection, memory or disk space left, or didn't carry a statement
// out in time.
func IsAway(err error) bool {
	var failed *pq.Error
	if errors.As(err, &failed) {
		switch failed.Code.Class() {
		case classConnection, classResources, classIntervention:
			return true
		}
		return IsCode(err, ReadOnlyTransaction, LockNotAvailable)
	}
	return IsLost(err) || errors.Is(err, ErrNotBegun) || errors.Is(err, ErrUnknownCommit) || errors.Is(err, ErrNoAnswer)
}

// AsLasting returns an error with the text of err, for which Remedy returns that it lasts. Use it for what a database
// or a role has to be changed for, such as an encoding. It returns nil if err is nil.
func AsLasting(err error) error {
	if err == nil {
		return nil
	}
	return lastingError{err}
}

type lastingError struct{ error }

func (l lastingError) Unwrap() error { return l.error }

// remedies are what to do about an error of the server that lasts until somebody does it.
var remedies = map[pq.ErrorCode]string{
	InvalidPassword:       "Set PGPASSWORD to the password of the role, or PGPASSFILE to a file that has it",
	InvalidAuthorization:  "Create the role, let it log in, and let it connect by pg_hba.conf",
	InvalidCatalogName:    "Create the database, or name another one in the URL",
	InvalidSchemaName:     "Create the schema of search_path, or let the role use it",
	InsufficientPrivilege: "Grant the right to the role of the URL, or name another role",
	InvalidParameterValue: "Correct the parameters of the URL, and the server's settings for the role and the database",
	UndefinedObject:       "Correct the parameters of the URL",
}

// Remedy reports whether an error of a connection or a server lasts until somebody changes the configuration, the role
// or the database, and what to do about it. It returns "" if the text of the error says that. Every other error may be
// over soon: the server can't be reached, starts or stops, or has no connection left. (Which errors last is this
// project's choice.)
func Remedy(err error) (remedy string, isLasting bool) {
	var failed *pq.Error
	if errors.As(err, &failed) {
		remedy, isLasting = remedies[failed.Code]
		return remedy, isLasting
	}
	var known lastingError
	if errors.As(err, &known) || errors.Is(err, ErrBadAddress) || errors.Is(err, ErrNotDurable) {
		return "", true
	}
	return remedyOfTLS(err)
}

// remedyOfTLS is Remedy for an error of TLS, or of one of its files.
func remedyOfTLS(err error) (remedy string, isLasting bool) {
	var file *fs.PathError
	var authority x509.UnknownAuthorityError
	var host x509.HostnameError
	var certificate x509.CertificateInvalidError
	switch {
	case errors.Is(err, pq.ErrSSLNotSupported):
		return "Turn on ssl in the server, or set sslmode=disable in the URL if nobody else can use the network", true
	case errors.As(err, &authority), errors.As(err, &host), errors.As(err, &certificate):
		return "Name the server as its certificate does, and the authority by sslrootcert in the URL", true
	case errors.Is(err, pq.ErrSSLKeyHasWorldPermissions), errors.Is(err, pq.ErrSSLKeyUnknownOwnership):
		return "Let nobody else read the file of sslkey", true
	case errors.As(err, &file):
		return "Correct the name of the file in the URL, or its permissions", true
	}
	return "", false
}
