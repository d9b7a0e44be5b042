//go:build storm

package without

import (
	"errors"
	"fmt"
	"io/fs"
	"os"
	"strings"
	"syscall"
)

// enter locks the file of a key for a worker that begins, and writes into it which process that is. It reports whether
// nobody else works at the key, and so whether the worker has the lock.
//
// A process that is killed loses its locks one after the other, and that of the broker may be the first. It runs no more
// of its program then. So if a process that is ending has locked the file, the worker waits until it is free, and looks
// whether that process is the last that has entered: another may have locked the file, and not be in it yet.
//
// Errors: those of the file system. Whether somebody else works isn't known then.
func enter(file *os.File) (isAlone bool, err error) {
	err = lock(file, syscall.LOCK_EX|syscall.LOCK_NB)
	if errors.Is(err, syscall.EWOULDBLOCK) {
		if isAlone, err = outlive(file); !isAlone {
			return false, err
		}
	}
	if err == nil {
		err = file.Truncate(0)
	}
	if err == nil {
		_, err = fmt.Fprintln(file, os.Getpid())
	}
	return err == nil, err
}

// leave unlocks the file of a key, in which nobody stands then. What a process has written that is killed stays.
//
// Errors: those of the file system. The lock ends with the file then.
func leave(file *os.File) error {
	if err := file.Truncate(0); err != nil {
		return err
	}
	return lock(file, syscall.LOCK_UN)
}

// outlive locks the file of a key once the process that has its lock has ended. It reports whether that process was
// ending already, and nobody else had the lock meanwhile.
//
// Errors: those of the file system.
func outlive(file *os.File) (isAlone bool, err error) {
	before, err := os.ReadFile(file.Name())
	if err != nil {
		return false, err
	}
	isLeft, err := isEnding(strings.TrimSpace(string(before)))
	if err != nil || !isLeft {
		return false, err
	}
	if err := lock(file, syscall.LOCK_EX); err != nil {
		return false, err
	}
	after, err := os.ReadFile(file.Name())
	return string(after) == string(before), err
}

func lock(file *os.File, how int) error {
	for {
		if err := syscall.Flock(int(file.Fd()), how); !errors.Is(err, syscall.EINTR) {
			return err
		}
	}
}

// endingFlag is the flag of a process that is ending (PF_EXITING of Linux).
const endingFlag = 0x4

// isEnding reports whether a process has ended, or runs no more of its program. No number is no process that ends.
//
// Errors: those of reading /proc/PID/stat, and of a text that isn't such a file's.
func isEnding(process string) (bool, error) {
	if process == "" {
		return false, nil
	}
	text, err := os.ReadFile("/proc/" + process + "/stat")
	if errors.Is(err, fs.ErrNotExist) || errors.Is(err, syscall.ESRCH) {
		return true, nil
	}
	if err != nil {
		return false, err
	}
	flags, err := flagsIn(string(text))
	return flags&endingFlag != 0, err
}

// flagsIn are the flags of a process in the text of its stat. They stand behind the name of the program, which is in
// parentheses, and six more fields.
func flagsIn(text string) (flags uint, err error) {
	var state string
	var parent, group, session, terminal, foreground int
	text = text[strings.LastIndexByte(text, ')')+1:]
	if _, err := fmt.Sscan(text, &state, &parent, &group, &session, &terminal, &foreground, &flags); err != nil {
		return 0, fmt.Errorf("the flags of a process in %q: %w", text, err)
	}
	return flags, nil
}
