//go:build !storm

package main

import "pippinterm/platform"

// storeForStorm changes nothing, and neither does forStorm: only the storm has parts of its own.
func storeForStorm(store platform.Store) platform.Store { return store }

func forStorm(
	with platform.Client, _ platform.Store, options platform.Options,
) (platform.Client, platform.Options, error) {
	return with, options, nil
}
