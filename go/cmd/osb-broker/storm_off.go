//go:build !storm

package main

import "context"

// forStorm changes nothing: only the storm has parts of its own.
func (p *parts) forStorm(context.Context, *settings) error { return nil }
