package main

import (
	"context"
	"errors"
	"fmt"
	"io"
	"strings"

	"github.com/spf13/cobra"

	"pippinterm/broker/backend/postgres"
	"pippinterm/internal/cli"
	"pippinterm/internal/pg"
	"pippinterm/osb"
)

// passwordCommand prints what 0.2 printed: the password of the role that owns the database of an instance.
func passwordCommand() *cobra.Command {
	file := ""
	made := &cobra.Command{
		Use:   "password INSTANCE",
		Short: "Print the password of the role that owns the database of an instance",
		Long: `Print the password of the role that owns the PostgreSQL database of an instance. The platform never gets this
password: each binding has a role and a password of its own.`,
		Args: cobra.ExactArgs(1),
		RunE: func(c *cobra.Command, arguments []string) error {
			id, err := osb.IDOfText(arguments[0])
			if err != nil {
				return cli.Unusable(fmt.Errorf("%q can't be the id of an instance: %w", arguments[0], err))
			}
			key, err := keyOf(file, nil)
			if err != nil {
				return err
			}
			_, err = fmt.Fprintln(c.OutOrStdout(), postgres.PasswordOf(key, osb.InstanceKey(id)))
			return err
		},
	}
	made.Flags().StringVar(&file, "backend-key-file", "", "a `file` with the key of the databases' passwords")
	return made
}

// keyCommand makes a key.
func keyCommand() *cobra.Command {
	return cli.KeyCommand("Make a new key for the store, or for the passwords of the databases",
		`Make a new random key, which encrypts parameters and credentials in the store (--key-file), or from which the
passwords of the databases are made (--backend-key-file). It is printed, or written to the new file that --to names.`,
		`  osb-broker key --to key`)
}

// rekeyCommand replaces the key.
func rekeyCommand() *cobra.Command {
	backend, file, newFile := "", "", ""
	made := &cobra.Command{
		Use:   "rekey",
		Short: "Set new passwords of all databases, made from another key",
		Long: `Set new passwords of the roles of all databases of the store, made from another key. Stop all brokers of the store
first. Passwords that the platform has of bindings stop working: unbind and bind again.`,
		RunE: func(c *cobra.Command, _ []string) error {
			return rekey(c.Context(), c.OutOrStdout(), backend, file, newFile)
		},
	}
	flags := made.Flags()
	flags.StringVar(&backend, "backend", "", "the `URL` of the backend, postgresql://..")
	flags.StringVar(&file, "backend-key-file", "", "a `file` with the present key")
	flags.StringVar(&newFile, "new-key-file", "", "a `file` with the new key")
	return made
}

func rekey(ctx context.Context, out io.Writer, backend, file, newFile string) error {
	if !pg.IsAddress(backend) {
		return cli.Unusable(errors.New("--backend has to be a URL postgresql://.. of the server that is sold"))
	}
	if err := withoutPassword(backend); err != nil {
		return err
	}
	if newFile == "" {
		return cli.Unusable(errors.New("--new-key-file is missing"))
	}
	key, err := keyOf(file, nil)
	if err != nil {
		return err
	}
	other, err := longKeyOf(newFile, nil)
	if err != nil {
		return err
	}
	left, err := postgres.Rekey(ctx, backend, key, other)
	if err != nil {
		return away("the backend can't be used", err)
	}
	if len(left) > 0 {
		fmt.Fprintf(out, "these roles have the old password, because they aren't this store's: %s\n", strings.Join(left, ", "))
	}
	return nil
}
