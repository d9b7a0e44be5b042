// Package toy is what the tests of the program mutants change. Each function has a mutant of one kind first.
package toy

import (
	"errors"
	"time"
)

var errEven = errors.New("even")

// Odd fails if the number is even.
func Odd(number int) error {
	if number%2 == 0 {
		return errEven
	}
	return nil
}

// Wait returns how long to wait.
func Wait(isFirst bool) time.Duration {
	wait := time.Second
	if isFirst && wait > 0 {
		wait = 0
	}
	return wait
}

// Sum adds up the numbers that are below a limit, but for the last one.
func Sum(limit int, numbers ...int) (sum int) {
	last := 0
	for _, number := range numbers {
		if number >= limit {
			continue
		}
		sum += last
		last = number
	}
	return sum
}

// Name returns the name of a number.
func Name(number int) string {
	switch number {
	case 0:
		return "none"
	case 1:
		return ""
	}
	return "many"
}

// IsSmall reports whether a number is small. No test asks.
func IsSmall(number int) bool { return number < 10 == true }

// Stop has only a crash point, which isn't changed.
func Stop() { point("stop") }

func point(string) {}
