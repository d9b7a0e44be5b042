package broker

import (
	"crypto/subtle"
	"errors"
	"fmt"
	"net/http"
	"sort"
	"strings"
	"sync/atomic"
	"time"

	"pippinterm/osb"
)

// Users are the platforms that may log in, with their passwords. Any number of goroutines may use Users. The zero Users
// let nobody log in.
type Users struct{ logins atomic.Pointer[[]login] }

type login struct{ user, password, header string }

// NewUsers takes the passwords of each user: one, or several that are valid at once, so that one can be replaced.
//
// Errors: no user, a user without a password, an empty user or password, a user with a colon, or either not UTF-8. No
// error names a password.
func NewUsers(passwords map[string][]string) (*Users, error) {
	users := &Users{}
	if err := users.Replace(passwords); err != nil {
		return nil, err
	}
	return users, nil
}

// Replace takes the passwords of each user, as NewUsers does, in place of all that were valid before. A request that is
// judged after Replace has returned needs one of the new ones.
//
// Errors: those of NewUsers. The old passwords are valid then.
func (u *Users) Replace(passwords map[string][]string) error {
	logins, err := loginsOf(passwords)
	if err != nil {
		return err
	}
	u.logins.Store(&logins)
	return nil
}

// current returns the logins that are valid now.
func (u *Users) current() []login {
	if logins := u.logins.Load(); logins != nil {
		return *logins
	}
	return nil
}

func loginsOf(passwords map[string][]string) (logins []login, err error) {
	for user, all := range passwords {
		if len(all) == 0 {
			return nil, fmt.Errorf("the user %q has no password", user)
		}
		for _, password := range all {
			request := http.Request{Header: http.Header{}}
			request.SetBasicAuth(user, password)
			header := request.Header.Get("Authorization")
			if strings.Contains(user, ":") || user == "" || password == "" ||
				osb.BasicAuth(header, user, password) != nil {
				return nil, fmt.Errorf("the user %q or its password can't be sent by HTTP's Basic scheme", user)
			}
			logins = append(logins, login{user, password, header})
		}
	}
	if len(logins) == 0 {
		return nil, errors.New("no user may log in")
	}
	sort.Slice(logins, func(one, other int) bool { return logins[one].user < logins[other].user })
	return logins, nil
}

// judge returns the user whose password the header Authorization names. A header that stands twice is judged as one
// with both values, which names nobody. Each login is compared, so the time doesn't tell which one it is.
//
// Errors: osb.ErrUnauthorized, osb.ErrMemory.
func (u *Users) judge(values []string) (string, error) {
	value, found, logins := strings.Join(values, ", "), "", u.current()
	for _, login := range logins {
		if subtle.ConstantTimeCompare([]byte(value), []byte(login.header)) == 1 {
			found = login.user
		}
	}
	if found != "" {
		return found, nil
	}
	for _, login := range logins { // other spellings of the same header
		err := osb.BasicAuth(value, login.user, login.password)
		if err == nil {
			found = login.user
		} else if errors.Is(err, osb.ErrMemory) {
			return "", err
		}
	}
	if found == "" {
		return "", osb.ErrUnauthorized
	}
	return found, nil
}

// A Limiter limits how many passwords can be tried from an address.
type Limiter interface {
	// FailedLogin counts a login from this address that failed, and returns how long its answer has to wait, or 0.
	FailedLogin(address string) time.Duration
}
