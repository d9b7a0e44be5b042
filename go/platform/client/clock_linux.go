package client

import (
	"syscall"
	"time"
	"unsafe"
)

// clockBoottime is CLOCK_BOOTTIME of Linux: the time since the machine was started, also that while it was suspended.
const clockBoottime = 7

// clock returns the clock of this machine. If the system doesn't have that of Linux, it is the one of package time.
func clock() func() time.Time {
	if _, ok := boottime(); !ok {
		return sinceStart()
	}
	return func() time.Time {
		now, _ := boottime()
		return now
	}
}

func boottime() (now time.Time, ok bool) {
	var read syscall.Timespec
	_, _, errno := syscall.RawSyscall(syscall.SYS_CLOCK_GETTIME, clockBoottime, uintptr(unsafe.Pointer(&read)), 0)
	return time.Unix(read.Unix()), errno == 0
}
