package toy

import (
	"os"
	"runtime"
	"syscall"
	"testing"
	"time"
)

func TestOdd(t *testing.T) {
	if Odd(1) != nil || Odd(2) == nil {
		t.Error("got another error")
	}
}

// TestWait doesn't look at how long the wait is.
func TestWait(t *testing.T) {
	if got := Wait(true); got != 0 {
		t.Errorf("got %v, want no wait", got)
	}
	if got := Wait(false); got == 0 {
		t.Errorf("got %v, want a wait", got)
	}
}

func TestSum(t *testing.T) {
	if got := Sum(5, 1, 9, 2, 3); got != 3 {
		t.Errorf("got %d, want 3", got)
	}
}

func TestName(t *testing.T) {
	for number, want := range []string{"none", "", "many"} {
		if got := Name(number); got != want {
			t.Errorf("got %q, want %q", got, want)
		}
	}
}

// TestHangs waits for what a mutant takes away.
func TestHangs(t *testing.T) {
	for os.Getenv("TOY_HANGS") != "" && Name(0) == "none" {
		time.Sleep(time.Millisecond)
	}
}

// TestFails fails with any mutant, or without one, too.
func TestFails(t *testing.T) {
	switch os.Getenv("TOY_FAILS") {
	case "with a mutant":
		if os.Getenv("OSB_MUTANT") != "" {
			t.Error("there is a mutant")
		}
	case "always":
		t.Error("it always fails")
	}
}

func TestSkips(t *testing.T) { t.Skip("it has nothing to look at") }

// TestAsNobody is another user, if it may be. Its thread ends with it.
func TestAsNobody(t *testing.T) {
	const nobody = 65534
	runtime.LockOSThread()
	_, _, _ = syscall.RawSyscall(syscall.SYS_SETFSUID, nobody, 0, 0)
	if Odd(1) != nil {
		t.Error("got an error")
	}
}
