package main

import (
	"context"
	"encoding/json"
	"errors"
	"fmt"
	"os/signal"
	"syscall"
	"time"

	"github.com/spf13/cobra"
	"github.com/spf13/pflag"

	"pippinterm/internal/cli"
	"pippinterm/platform"
)

// mostTries is the most for --tries.
const mostTries = 100

// createCommand writes down an instance.
func createCommand(a *app) *cobra.Command {
	wanted, wait := platform.NewInstance{}, &waitFlag{}
	made := &cobra.Command{
		Use:   "create",
		Short: "Create an instance, and print its id",
		Long: `Create an instance, and print its id: the order is written to the store, and 'run' sends the request.

If the creation fails for a reason that may pass, such as a timeout or a 503, it is tried again under another id,
--tries times in all. With --id it is tried once, unless --tries says otherwise. 'show' has the ids of all tries.`,
		Example: `  osb-platform create --broker shop --service database --plan small
  osb-platform create --service database --plan small --parameters '{"size": 3}'
  id=$(osb-platform create --service database --plan small --wait=600)`,
		Args: wants(),
		RunE: a.over(needsStore, func(ctx context.Context, c *cobra.Command, s session, _ []string) error {
			entry, err := s.orders.Create(ctx, wanted)
			if err != nil {
				return err
			}
			ctx, forget := wait.interruptible(ctx)
			defer forget()
			return wait.reportOrder(ctx, c, s, entry)
		}),
	}
	flags := made.Flags()
	flags.SortFlags = false
	flags.StringVar(&wanted.Broker, "broker", "", "the `name` of the broker, if there are several")
	flags.StringVar(&wanted.Service, "service", "", "the `name` or id of the service in the broker's catalogue")
	flags.StringVar(&wanted.Plan, "plan", "", "the `name` or id of the plan")
	flags.Var(chosenID(&wanted.ID), "id", "the `id` of the instance, that nobody has used (default: a new GUID)")
	flags.StringVar(&wanted.Organization, "organization", "", "the `text` sent as organization_guid (default "+
		platform.DefaultOrganization+")")
	flags.StringVar(&wanted.Space, "space", "", "the `text` sent as space_guid (default "+platform.DefaultSpace+")")
	addObjects(made, flags, &wanted.Parameters, &wanted.Context, &wanted.Identity)
	addTries(flags, &wanted.Tries)
	wait.add(flags, "ready", printsLastTry)
	a.journal.add(flags)
	return made
}

// printsLastTry is what a command that creates something prints if it waits.
const printsLastTry = "Standard error gets the id at once, and standard output the id of the last try at the end"

func addTries(flags *pflag.FlagSet, tries *int) {
	flags.Var(cli.Count(tries, 0, 1, mostTries), "tries", fmt.Sprintf("how often it is tried at most, under another "+
		"id each time (default: %d, or 1 with --id)", platform.DefaultTries))
}

func addObjects(c *cobra.Command, flags *pflag.FlagSet, parameters, around *json.RawMessage, user *string) {
	flags.Var(objectValue(parameters, c.InOrStdin), "parameters",
		"an object sent as parameters, or @ and a file with it. It is kept in the store, not encrypted")
	flags.Var(objectValue(around, c.InOrStdin), "context", "an object sent as context, or @ and a file with it")
	flags.Var(&identity{to: user}, "identity",
		"the user behind the order, sent as X-Broker-API-Originating-Identity: a platform and an object")
}

// bindCommand writes down a binding.
func bindCommand(a *app) *cobra.Command {
	wanted, wait := platform.NewBinding{}, &waitFlag{}
	made := &cobra.Command{
		Use:   "bind INSTANCE",
		Short: "Create a binding of an instance that is ready, and print its id",
		Long: `Create a binding, and print its id, INSTANCE/BINDING: the order is written to the store, and 'run' sends
the request. Once the binding is ready, 'credentials' prints its credentials. The store keeps them, encrypted with the
key of --key-file.

If the creation fails for a reason that may pass, such as a timeout or a 503, and the instance is still ready, it is
tried again under another id, --tries times in all. With --id it is tried once, unless --tries says otherwise. 'show'
has the ids of all tries.`,
		Example: `  osb-platform bind 5f1b7c0e-2f0b-4d0a-9d3e-6a3f0e1f2a3b --wait
  osb-platform bind my-database --resource '{"app_guid": "one"}'
  binding=$(osb-platform bind my-database --wait=600)`,
		Args: wants("INSTANCE"),
		RunE: a.over(needsKey, func(ctx context.Context, c *cobra.Command, s session, arguments []string) error {
			if s.vault == nil {
				return cli.Unusable(errors.New("name the file with the key that encrypts the credentials: " +
					"--key-file FILE, here and for 'run'. 'osb-platform key' makes a key"))
			}
			wanted.Instance = arguments[0]
			entry, err := s.orders.Bind(ctx, wanted)
			if err != nil {
				return err
			}
			ctx, forget := wait.interruptible(ctx)
			defer forget()
			return wait.reportOrder(ctx, c, s, entry)
		}),
	}
	flags := made.Flags()
	flags.SortFlags = false
	flags.Var(chosenID(&wanted.ID), "id", "the `id` of the binding, that nobody has used (default: a new GUID)")
	flags.Var(objectValue(&wanted.BindResource, made.InOrStdin), "resource",
		"an object sent as bind_resource, or @ and a file with it")
	addObjects(made, flags, &wanted.Parameters, &wanted.Context, &wanted.Identity)
	addTries(flags, &wanted.Tries)
	wait.add(flags, "ready", printsLastTry)
	a.journal.add(flags)
	return made
}

// credentialsCommand prints the credentials of a binding.
func credentialsCommand(a *app) *cobra.Command {
	name := ""
	made := &cobra.Command{
		Use:   "credentials INSTANCE/BINDING",
		Short: "Print the credentials of a binding that is ready",
		Long: `Print what the broker has answered for a binding that is ready: an object of JSON,
whose member credentials has the credentials. Nothing of it stands in a log.`,
		Example: `  osb-platform credentials my-database/one --to credentials.json`,
		Args:    wants("INSTANCE/BINDING"),
		RunE: a.over(needsKey, func(ctx context.Context, c *cobra.Command, s session, arguments []string) error {
			entry, err := readEntry(ctx, s.store, arguments[0])
			if err != nil {
				return err
			}
			if s.vault == nil && entry.Key.IsBinding {
				return cli.Unusable(errors.New("name the file with the key that encrypted the credentials: " +
					"--key-file FILE"))
			}
			object, err := s.orders.Credentials(ctx, entry.Key)
			if err != nil {
				return ofEarlierTry(ctx, s.store, entry, err)
			}
			text := append(asciiJSON(object), '\n')
			if name == "" {
				_, err = c.OutOrStdout().Write(text)
				return err
			}
			return cli.WriteSecret(name, text)
		}),
	}
	made.Flags().StringVar(&name, "to", "", "a new `file` to write them to, that only its owner can read (mode 0600)")
	return made
}

// ofEarlierTry names the last try of the order of a binding, if the binding has no credentials and was tried again.
func ofEarlierTry(ctx context.Context, store platform.Store, entry platform.Entry, err error) error {
	var rejected *platform.Rejection
	if !errors.As(err, &rejected) || rejected.Kind != platform.Conflict {
		return err
	}
	last, failed := lastTry(ctx, store, entry)
	if failed != nil || last.Key == entry.Key {
		return err
	}
	return &platform.Rejection{Kind: rejected.Kind, Text: rejected.Text + ". It was tried again as " + printable(idOf(last))}
}

// A waitFlag is the value of the flag --wait[=SECONDS].
type waitFlag struct {
	isOn  bool
	limit time.Duration // 0 for none
}

const withoutLimit = "forever"

func (w *waitFlag) String() string {
	if !w.isOn {
		return ""
	}
	return w.limit.String()
}

func (w *waitFlag) Type() string { return "seconds" }

func (w *waitFlag) Set(text string) error {
	if text == withoutLimit {
		w.isOn, w.limit = true, 0
		return nil
	}
	limit, err := cli.ParseSeconds(text, time.Millisecond, longestTime)
	if err != nil {
		return err
	}
	w.isOn, w.limit = true, limit
	return nil
}

func (w *waitFlag) add(flags *pflag.FlagSet, end, prints string) {
	flags.Var(w, "wait", "wait until it is "+end+", for so many seconds at most. "+prints+". The exit status is 0 "+
		"then, 3 if it has ended otherwise, and 4 if it goes on. It goes on after SIGINT, too")
	flags.Lookup("wait").NoOptDefVal = withoutLimit
}

// reportOrder prints the id of an order, on a terminal with escapes if it needs them. With --wait, that id is printed
// on standard error at once. At the end, standard output has the id of the last try.
//
// Errors: those of wait.
func (w *waitFlag) reportOrder(ctx context.Context, c *cobra.Command, s session, entry platform.Entry) error {
	var err error
	if w.isOn {
		fmt.Fprintf(c.ErrOrStderr(), "ordered %s\n", printable(idOf(entry)))
		entry, err = w.wait(ctx, c, s, entry, true, creationEnd)
	}
	if _, failed := fmt.Fprintln(c.OutOrStdout(), printableOn(c.OutOrStdout(), idOf(entry))); err == nil {
		err = failed
	}
	return err
}

// The times between two looks at a row that is waited for.
const (
	firstLook   = 50 * time.Millisecond
	longestLook = time.Second
)

// An end says whether a row has ended, and whether as it was asked for.
type end func(platform.Entry) (hasEnded, isGood bool)

// creationEnd is the end of a creation.
func creationEnd(e platform.Entry) (hasEnded, isGood bool) {
	switch e.State {
	case platform.Ready:
		return true, true
	case platform.Gone, platform.Withdrawn, platform.Abandoned:
		return true, false
	case platform.Unsettled:
		return e.Rests(), false
	}
	return false, false
}

// deletionEnd is the end of a removal.
func deletionEnd(e platform.Entry) (hasEnded, isGood bool) {
	switch e.State {
	case platform.Gone, platform.Withdrawn:
		return true, true
	case platform.Abandoned:
		return true, false
	}
	return false, false
}

// interruptible is a context that SIGINT and SIGTERM end, if something is to be waited for.
func (w *waitFlag) interruptible(ctx context.Context) (interrupted context.Context, forget func()) {
	if !w.isOn {
		return ctx, func() {}
	}
	return signal.NotifyContext(ctx, syscall.SIGINT, syscall.SIGTERM)
}

// wait waits for the end of a row, and returns the row as it was read last. If isChain, it goes on with the next try of
// an order that has failed, and reports that on standard error.
//
// Errors: an endError, also if ctx ends; those of the store.
func (w *waitFlag) wait(
	ctx context.Context, c *cobra.Command, s session, entry platform.Entry, isChain bool, is end,
) (platform.Entry, error) {
	shown := newProgress(c.ErrOrStderr())
	defer shown.end()
	key, started := entry.Key, time.Now()
	for rest := firstLook; ; rest = twice(rest, longestLook) {
		read, err := s.store.Read(ctx, key)
		if err == nil && isChain {
			read, err = lastTry(ctx, s.store, read)
		}
		switch {
		case ctx.Err() != nil:
			return entry, interruption(entry)
		case err != nil:
			return entry, err
		case read.Unreadable != "":
			return read, fmt.Errorf("%s: %s", printable(idOf(read)), unreadable(read))
		case read.Key != entry.Key:
			shown.end()
			fmt.Fprintf(c.ErrOrStderr(), "%s has failed: tried again as %s%s\n", printable(idOf(entry)),
				printable(idOf(read)), hintOf(ctx, s.store, read))
		}
		entry = read
		hasEnded, isGood := is(entry)
		passed := time.Since(started)
		isOver := w.limit > 0 && passed >= w.limit
		if hasEnded || isOver {
			shown.end()
			return entry, endOf(ctx, s.store, entry, hasEnded, isGood)
		}
		shown.show(fmt.Sprintf("%s: %s, %d s%s", printable(idOf(entry)), entry.State, int(passed.Seconds()),
			hintOf(ctx, s.store, entry)))
		if w.limit > 0 && rest > w.limit-passed {
			rest = w.limit - passed
		}
		if sleep(ctx, rest) != nil {
			return entry, interruption(entry)
		}
	}
}

// interruption is the end of a wait by SIGINT or SIGTERM.
func interruption(e platform.Entry) error {
	text := fmt.Sprintf("interrupted: %s is %s, and goes on", printable(idOf(e)), e.State)
	return &endError{status: statusGoesOn, text: text}
}

func sleep(ctx context.Context, rest time.Duration) error {
	timer := time.NewTimer(rest)
	defer timer.Stop()
	select {
	case <-ctx.Done():
		return ctx.Err()
	case <-timer.C:
		return nil
	}
}

func twice(rest, longest time.Duration) time.Duration {
	if rest *= 2; rest < longest {
		return rest
	}
	return longest
}

// lastTry is the latest try of an order.
func lastTry(ctx context.Context, store platform.Store, entry platform.Entry) (platform.Entry, error) {
	all, err := triesOf(ctx, store, entry)
	if err != nil {
		return entry, err
	}
	for _, caught := range all {
		if caught.Try > entry.Try {
			entry = caught
		}
	}
	return entry, nil
}

// endOf is how a wait has ended: nil, or an endError.
func endOf(ctx context.Context, store platform.Store, e platform.Entry, hasEnded, isGood bool) error {
	switch {
	case isGood:
		return nil
	case !hasEnded:
		text := fmt.Sprintf("%s is still %s%s%s", printable(idOf(e)), e.State, dueLater(e), because(ctx, store, e))
		return &endError{status: statusGoesOn, text: text}
	}
	text := fmt.Sprintf("%s is %s%s", printable(idOf(e)), e.State, because(ctx, store, e))
	return &endError{status: statusOtherwise, text: text}
}

// dueLater is when a deletion that isn't in flight is due, in brackets and behind a blank, or empty if that is soon.
func dueLater(e platform.Entry) string {
	if e.State != platform.Cleaning || e.Lease.Worker != "" || time.Until(e.Due) < 5*time.Second {
		return ""
	}
	return fmt.Sprintf(" (the deletion is due at %s)", moment(e.Due))
}

// because is why a row is as it is, behind a colon, or empty. Of an order that isn't sent, it is why its broker isn't
// reached.
func because(ctx context.Context, store platform.Store, e platform.Entry) string {
	text := reasonOf(e)
	if waits := waitingFor(ctx, store, e); text == "" && waits != "" {
		return ": " + waits
	}
	if e.State == platform.Ordered {
		if broker, err := brokerOf(ctx, store, e.Broker); err == nil && text == "" {
			text = textOf(broker.Reason)
		}
	}
	if text == "" {
		return hint(e, 0)
	}
	return ": " + text
}

// hintOf is why nothing is sent for a row, in brackets and behind a blank, or empty.
func hintOf(ctx context.Context, store platform.Store, e platform.Entry) string {
	if waits := waitingFor(ctx, store, e); waits != "" {
		return " (" + waits + ")"
	}
	return hint(e, 5*time.Second)
}

// waitingFor is until when a further try waits, and why, or empty. It is empty, too, if the store fails.
func waitingFor(ctx context.Context, store platform.Store, e platform.Entry) string {
	before, err := tryBefore(ctx, store, e)
	if err != nil {
		return ""
	}
	return entryWithBroker{Entry: e, before: before}.waits()
}

// hint is what may be wrong with an order that isn't sent though it has been due for so long.
func hint(e platform.Entry, since time.Duration) string {
	if e.State != platform.Ordered || e.Rests() || time.Since(e.Due) < since {
		return ""
	}
	return " (not sent yet: check that 'osb-platform run' runs, and reaches the broker)"
}
