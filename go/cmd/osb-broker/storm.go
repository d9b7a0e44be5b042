//go:build storm

package main

import (
	"context"
	"os"

	"pippinterm/broker/backend/folders"
	"pippinterm/internal/cli"
	"pippinterm/storm/without"
)

// forStorm makes of the parts what a storm tries: folders that are slow and fail, and a store and locks without the
// part of the design that OSB_WITHOUT names.
func (p *parts) forStorm(ctx context.Context, s *settings) (err error) {
	if of, ok := p.backend.(*folders.Folders); ok {
		if p.backend, err = without.SlowFolders(of, s.state); err != nil {
			return cli.Unusable(err)
		}
	}
	store, locks, err := without.StoreAndLocks(ctx, os.Getenv("OSB_WITHOUT"), p.store, p.locks)
	if err != nil {
		return cli.Unusable(err)
	}
	p.store, p.locks = store, locks
	return nil
}
