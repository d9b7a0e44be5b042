//go:build !linux

package client

import "time"

// clock returns the clock of this machine. Whether it goes on while the machine is suspended is the system's choice.
func clock() func() time.Time { return sinceStart() }
