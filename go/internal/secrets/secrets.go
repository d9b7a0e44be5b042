// Package secrets reads passwords and keys from the environment and from files. No error and no warning contains a
// secret.
package secrets

import (
	"errors"
	"fmt"
	"io"
	"os"
	"sort"
	"strings"
	"syscall"
	"unicode"
	"unicode/utf8"
)

// most is how many passwords of a user are valid at a time: while a password is changed, the old one and the new one.
const most = 2

// Passwords returns one or two passwords, each of which is valid. If file is empty, the value of the environment
// variable is the only password. Otherwise each line of the file is a password. In both cases the variable is removed
// from the environment of the process, so that no child process gets it. The system still shows it in
// /proc/PID/environ, to root and to the user of the process, so a file is the better place.
//
// The last line feed of the file is dropped. A password is UTF-8 without control characters (RFC 7617, section 2; the
// files are this project's choice).
//
// The warning is for the log. It is empty, unless the mode of the file is beyond 0600.
//
// Errors: there is no password; the file can't be read, is longer than 64 KiB, or has more than two lines; a line is
// empty, isn't UTF-8, or has a control character.
func Passwords(environment, file string) (passwords []string, warning string, err error) {
	lines, warning, err := linesOf(environment, file)
	if err != nil {
		return nil, "", err
	}
	if len(lines) > most {
		return nil, "", fmt.Errorf("%s has %d lines: want one password, or two while it is changed", file, len(lines))
	}
	return lines, warning, nil
}

// Secret returns one secret, such as a key, from the same places as Passwords.
//
// Errors: those of Passwords, and a file with more than one line.
func Secret(environment, file string) (secret, warning string, err error) {
	lines, warning, err := linesOf(environment, file)
	if err != nil {
		return "", "", err
	}
	if len(lines) > 1 {
		return "", "", fmt.Errorf("%s has %d lines: want one", file, len(lines))
	}
	return lines[0], warning, nil
}

func linesOf(environment, file string) (lines []string, warning string, err error) {
	value := os.Getenv(environment)
	if err := os.Unsetenv(environment); err != nil {
		return nil, "", fmt.Errorf("the environment variable %q: %w", environment, err)
	}
	if file != "" {
		return read(file)
	}
	if value == "" {
		return nil, "", fmt.Errorf("set the environment variable %s, or name a file", environment)
	}
	if err := check(value); err != nil {
		return nil, "", fmt.Errorf("the environment variable %s: %w", environment, err)
	}
	return []string{value}, "", nil
}

// check returns an error unless the text can be a user, a password or a key. The error doesn't contain the text.
func check(text string) error {
	switch {
	case text == "":
		return errors.New("it is empty")
	case !utf8.ValidString(text):
		return errors.New("it isn't UTF-8")
	case strings.HasSuffix(text, "\r"):
		return errors.New("it ends with a carriage return: end lines with a line feed alone")
	case strings.IndexFunc(text, unicode.IsControl) >= 0:
		return errors.New("it has a control character")
	}
	return nil
}

// longest is how many bytes a file may have.
const longest = 64 << 10

// read returns the lines of a file, each of which passes check, and a warning if its mode is too wide.
func read(name string) (lines []string, warning string, err error) {
	text, warning, err := contents(name)
	if err != nil {
		return nil, "", err
	}
	lines = strings.Split(strings.TrimSuffix(text, "\n"), "\n")
	for number, line := range lines {
		if err := check(line); err != nil {
			return nil, "", fmt.Errorf("line %d of %s: %w", number+1, name, err)
		}
	}
	return lines, warning, nil
}

// contents returns the text of a regular file. Nothing else is opened for long: a pipe that nobody writes to would be
// waited for forever.
func contents(name string) (text, warning string, err error) {
	file, err := os.OpenFile(name, os.O_RDONLY|syscall.O_NONBLOCK, 0)
	if err != nil {
		return "", "", err
	}
	defer file.Close()
	about, err := file.Stat()
	if err != nil {
		return "", "", err
	}
	mode := about.Mode()
	if !mode.IsRegular() {
		return "", "", fmt.Errorf("%s isn't a regular file", name)
	}
	if mode.Perm()&^0o600 != 0 {
		warning = fmt.Sprintf("%s has the mode %04o. Run: chmod 600 %s", name, mode.Perm(), name)
	}
	bytes, err := io.ReadAll(io.LimitReader(file, longest+1))
	if err != nil {
		return "", "", err
	}
	if len(bytes) > longest {
		return "", "", fmt.Errorf("%s is longer than %d bytes", name, longest)
	}
	return string(bytes), warning, nil
}

// Users returns the users in a file, each with one or two passwords that are valid. Each line is user:password; the
// first colon separates them. Two lines of one user are its two passwords. The last line feed is dropped. Users and
// passwords are UTF-8 without control characters (RFC 7617, section 2; the file is this project's choice).
//
// The warning is for the log. It is empty, unless the mode of the file is beyond 0600.
//
// Errors: the file can't be read or is longer than 64 KiB; a line isn't user:password, isn't UTF-8, or has a control
// character; a user has more than two lines, or the same line twice.
func Users(file string) (users map[string][]string, warning string, err error) {
	lines, warning, err := read(file)
	if err != nil {
		return nil, "", err
	}
	users = make(map[string][]string)
	for number, line := range lines {
		if err := add(users, line); err != nil {
			return nil, "", fmt.Errorf("line %d of %s: %w", number+1, file, err)
		}
	}
	return users, warning, nil
}

func add(users map[string][]string, line string) error {
	user, password, _ := strings.Cut(line, ":")
	if user == "" || password == "" {
		return errors.New("it isn't user:password")
	}
	for _, other := range users[user] {
		if other == password {
			return errors.New("an earlier line has the same user and password")
		}
	}
	if len(users[user]) == most {
		return errors.New("a third password of one user: want one, or two while it is changed")
	}
	users[user] = append(users[user], password)
	return nil
}

// ShortestPassword is how many bytes a password has that can't be guessed: 16 random characters have about 95 bits.
const ShortestPassword = 16

// Short returns the users of which a password has fewer than ShortestPassword bytes, in the order of their names.
func Short(passwords map[string][]string) (users []string) {
	for user, all := range passwords {
		for _, secret := range all {
			if len(secret) < ShortestPassword {
				users = append(users, user)
				break
			}
		}
	}
	sort.Strings(users)
	return users
}
