//go:build storm

package main

import (
	"fmt"
	"os"
	"time"

	"pippinterm/internal/cli"
	"pippinterm/platform"
	"pippinterm/storm/without"
)

// storeForStorm returns the store of the engine: one of a platform as platforms are usually written if OSB_WITHOUT says so.
func storeForStorm(store platform.Store) platform.Store {
	if os.Getenv("OSB_WITHOUT") == "platform" {
		return without.ForgetfulStore(store)
	}
	return store
}

// forStorm makes of the client and the options what a storm tries: leases that end soon, by the duration in OSB_MARGIN,
// and a platform without attempts if OSB_WITHOUT says so.
func forStorm(
	with platform.Client, store platform.Store, options platform.Options,
) (platform.Client, platform.Options, error) {
	if text := os.Getenv("OSB_MARGIN"); text != "" {
		margin, err := time.ParseDuration(text)
		if err != nil {
			return nil, options, cli.Unusable(fmt.Errorf("OSB_MARGIN: %w", err))
		}
		options.Margin = margin
	}
	switch part := os.Getenv("OSB_WITHOUT"); part {
	case "", "platform": // of which storeForStorm takes care
		return with, options, nil
	case "attempts":
		return without.ClientWithoutAttempts(with, store), options, nil
	default:
		return nil, options, cli.Unusable(fmt.Errorf("storm: a platform can't run without %q", part))
	}
}
