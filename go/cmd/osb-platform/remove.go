package main

import (
	"context"
	"errors"
	"fmt"
	"net/http"
	"strconv"
	"strings"

	"github.com/spf13/cobra"

	"pippinterm/internal/cli"
	"pippinterm/platform"
	"pippinterm/platform/client"
)

// removeCommand has an instance deleted.
func removeCommand(a *app) *cobra.Command {
	withBindings, wait := false, &waitFlag{}
	made := &cobra.Command{
		Use:   "remove ID",
		Short: "Delete an instance",
		Long: `Delete an instance: the removal is written to the store, and 'run' sends the request. An order that
wasn't sent yet is withdrawn: it is never sent. If the instance is gone or withdrawn already, that is printed.

If the creation was tried again under other ids, the last try is removed. Standard error has its id.

An instance with bindings is removed only with --bindings, which removes its bindings first.`,
		Example: `  osb-platform remove 5f1b7c0e-2f0b-4d0a-9d3e-6a3f0e1f2a3b --bindings --wait`,
		Args:    wants("ID"),
		RunE: a.over(needsStore, func(ctx context.Context, c *cobra.Command, s session, arguments []string) error {
			return remove(ctx, c, s, arguments[0], withBindings, wait)
		}),
	}
	made.Flags().SortFlags = false
	made.Flags().BoolVar(&withBindings, "bindings", false, "remove its bindings first")
	wait.add(made.Flags(), "gone", printsEnd)
	a.journal.add(made.Flags())
	return made
}

// printsEnd is what a command that removes something prints if it waits.
const printsEnd = "Standard error gets the state at the end"

// unbindCommand has a binding deleted.
func unbindCommand(a *app) *cobra.Command {
	wait := &waitFlag{}
	made := &cobra.Command{
		Use:   "unbind INSTANCE/BINDING",
		Short: "Delete a binding",
		Long: `Delete a binding: the removal is written to the store, and 'run' sends the request. The credentials of
the binding stop working.

If the creation was tried again under other ids, the last try is removed. Standard error has its id.`,
		Example: `  osb-platform unbind my-database/5f1b7c0e-2f0b-4d0a-9d3e-6a3f0e1f2a3b --wait`,
		Args:    wants("INSTANCE/BINDING"),
		RunE: a.over(needsStore, func(ctx context.Context, c *cobra.Command, s session, arguments []string) error {
			id := arguments[0]
			key, err := platform.ParseKey(id)
			if err == nil && !key.IsBinding {
				err = cli.Unusable(fmt.Errorf("%q is an instance: want INSTANCE/BINDING, or use remove", id))
			}
			if err != nil {
				return err
			}
			return remove(ctx, c, s, id, false, wait)
		}),
	}
	wait.add(made.Flags(), "gone", printsEnd)
	a.journal.add(made.Flags())
	return made
}

func remove(ctx context.Context, c *cobra.Command, s session, id string, withBindings bool, wait *waitFlag) error {
	named, err := readEntry(ctx, s.store, id)
	if err != nil {
		return err
	}
	before, err := removeLast(ctx, c, s, named, withBindings)
	if err != nil {
		return err
	}
	if wait.isOn {
		ctx, forget := wait.interruptible(ctx)
		defer forget()
		last, err := wait.wait(ctx, c, s, before, false, deletionEnd)
		if err == nil {
			fmt.Fprintf(c.ErrOrStderr(), "%s is %s\n", printable(idOf(last)), last.State)
		}
		return err
	}
	if before.State == platform.Gone || before.State == platform.Withdrawn {
		_, err = fmt.Fprintf(c.OutOrStdout(), "it is %s already\n", before.State)
	}
	return err
}

// removeLast removes the last try of an order, and returns it as it was before. If another try than the one that is
// given is removed, standard error has its id.
func removeLast(
	ctx context.Context, c *cobra.Command, s session, named platform.Entry, withBindings bool,
) (platform.Entry, error) {
	for shown := named.Key; ; {
		last, err := lastTry(ctx, s.store, named)
		if err != nil {
			return last, err
		}
		if last.Key != shown {
			shown = last.Key
			fmt.Fprintf(c.ErrOrStderr(), "%s was tried again as %s: removing that one\n", printable(idOf(named)),
				printable(idOf(last)))
		}
		after, err := s.orders.Remove(ctx, last.Key, withBindings)
		if err != nil {
			return last, withHint(err, last, withBindings)
		}
		if after.State != platform.Gone {
			return last, nil
		}
		// a further try may have been ordered just now
		if further, err := lastTry(ctx, s.store, last); err != nil || further.Key == last.Key {
			return last, err
		}
	}
}

// withHint names the option with which an instance is removed that has bindings, if these are why it can't be removed.
func withHint(err error, before platform.Entry, withBindings bool) error {
	var rejected *platform.Rejection
	isConflict := errors.As(err, &rejected) && rejected.Kind == platform.Conflict
	isAbandoned := before.State == platform.Abandoned // the other reason for a conflict
	if !isConflict || isAbandoned || withBindings || before.Key.IsBinding {
		return err
	}
	text := fmt.Sprintf("the instance %s has bindings: unbind them first, or remove them with it by --bindings",
		printable(idOf(before)))
	return &platform.Rejection{Kind: rejected.Kind, Text: text}
}

// retryCommand has what is due later sent at once.
func retryCommand(a *app) *cobra.Command {
	made := &cobra.Command{
		Use:   "retry ID",
		Short: "Send at once what is due later, and a deletion again that is polled without an end",
		Long: `Send the next request of an instance or a binding at once. A deletion still waits for the hold of its
broker. If the broker has accepted a deletion, and polling it doesn't end, the deletion is sent again. For what is
unsettled nothing is sent: 'ask' says which command leads on.`,
		Example: `  osb-platform retry 5f1b7c0e-2f0b-4d0a-9d3e-6a3f0e1f2a3b`,
		Args:    wants("ID"),
		RunE: a.over(needsStore, func(ctx context.Context, _ *cobra.Command, s session, arguments []string) error {
			entry, err := readEntry(ctx, s.store, arguments[0])
			if err != nil {
				return err
			}
			_, err = s.orders.Retry(ctx, entry.Key)
			return withAdvice(err, entry)
		}),
	}
	a.journal.add(made.Flags())
	return made
}

// withAdvice names the commands that lead on from a row that is unsettled, if that is why it can't be retried.
func withAdvice(err error, before platform.Entry) error {
	var rejected *platform.Rejection
	if !errors.As(err, &rejected) || before.State != platform.Unsettled {
		return err
	}
	id, remove := printable(idOf(before)), "remove"
	if before.Key.IsBinding {
		remove = "unbind"
	}
	text := fmt.Sprintf("%s. Run 'osb-platform ask %s', and then 'osb-platform %s %s' or 'osb-platform abandon %s "+
		"--because TEXT'", rejected.Text, id, remove, id, id)
	return &platform.Rejection{Kind: rejected.Kind, Text: text}
}

// abandonCommand ends a record that nothing else ends.
func abandonCommand(a *app) *cobra.Command {
	text := ""
	made := &cobra.Command{
		Use:   "abandon ID --because TEXT",
		Short: "End a record although nobody knows what exists, for example if its broker doesn't exist any more",
		Long: `End the record of an instance or a binding as abandoned. Nothing more is sent. Nobody knows whether the
resource exists, so first ask the operator of the broker to look. 'list' keeps the record, with the reason.`,
		Example: `  osb-platform abandon my-database --because 'the broker was shut down, ticket 4711'`,
		Args:    wants("ID"),
		RunE: a.over(needsStore, func(ctx context.Context, _ *cobra.Command, s session, arguments []string) error {
			if text == "" {
				return cli.Unusable(errors.New("--because is missing: give the reason, for whoever reads the " +
					"record later"))
			}
			entry, err := readEntry(ctx, s.store, arguments[0])
			if err != nil {
				return err
			}
			_, err = s.orders.Abandon(ctx, entry.Key, text)
			return err
		}),
	}
	made.Flags().StringVar(&text, "because", "", "the reason, a `text` for people who read the record later")
	a.journal.add(made.Flags())
	return made
}

// A finding is what an answer says of what the broker holds under an id.
type finding int

const (
	saysNothing finding = iota // it wasn't asked for, or the answer leaves it open
	saysHeld                   // the broker holds it
	saysPending                // the broker holds it, and a Fetch may not find it: it is being created, or that has failed
	saysNone                   // the broker holds nothing
	saysOther                  // the broker holds something else
)

// saidByLast is what the answer about the last operation says. A 400 says that the service or the plan is another one
// only if the broker has tombstones: the standard has it for any bad request.
func saidByLast(last client.Answer, hasTombstones bool) finding {
	switch {
	case last.IsUnsure:
		return saysNothing
	case last.Status == http.StatusOK && last.State == "succeeded":
		return saysHeld
	case last.Status == http.StatusOK:
		return saysPending
	case last.Status == http.StatusGone:
		return saysNone
	case last.Status == http.StatusBadRequest && hasTombstones:
		return saysOther
	}
	return saysNothing
}

// saidByFetch is what the answer to the Fetch says. It is nil if nothing was fetched.
func saidByFetch(fetched *client.Answer) finding {
	switch {
	case fetched == nil || fetched.IsUnsure:
		return saysNothing
	case fetched.Status == http.StatusOK:
		return saysHeld
	case fetched.Status == http.StatusNotFound, fetched.Status == http.StatusGone:
		return saysNone
	}
	return saysNothing
}

// areContrary reports whether the last operation and the Fetch can't both be right.
func areContrary(last, fetch finding) bool {
	return last == saysHeld && fetch == saysNone || last == saysNone && fetch == saysHeld
}

// An advice is what to do next about a row that waits for a decision.
type advice int

const (
	askOperator      advice = iota // nobody knows what the broker holds
	askAboutContrary               // the answers contradict each other
	askAboutGone                   // a 410 at a broker without tombstones: it may say only that no operation is known
	leaveOrAbandon                 // the broker holds something else
	removeIfYours                  // the broker holds it, and it may be another platform's
	removeYours                    // the broker holds it, and nobody else has the id
	removeNothing                  // the broker holds nothing
	removeWhateverIs               // nobody knows what the broker holds, but nobody else has the id
	waitForBroker                  // of a deletion: the broker works on it
	retryNothing                   // of a deletion: nothing exists
	repairPart                     // of a deletion: a part may exist
	repairWhole                    // of a deletion: it exists
	askAboutOther                  // of a deletion: the broker holds something else
	askWhetherExists               // of a deletion: nobody knows whether it exists
	askWhoIsRight                  // of a deletion: the answers contradict each other
)

// advise chooses the advice. A deletion is advised only if the answers don't contradict each other, and if it can't
// delete what another platform has, or the advice is to look first.
func advise(last, fetch finding, known circumstances) advice {
	switch {
	case areContrary(last, fetch):
		return askAboutContrary
	case last == saysOther:
		return leaveOrAbandon
	case last == saysHeld || last == saysPending:
		switch {
		case known.isOwnID:
			return removeYours
		case known.isOthers:
			return leaveOrAbandon
		}
		return removeIfYours
	case known.isOwnID && last == saysNone:
		return removeNothing
	case known.isOwnID:
		return removeWhateverIs
	case last == saysNothing || known.isFetched && fetch == saysNothing:
		return askOperator
	case known.hasTombstones || fetch == saysNone:
		return removeNothing
	}
	return askAboutGone
}

// adviseDeletion chooses the advice about what is to be deleted. At a broker without tombstones, the last operation may
// be the creation or the deletion, so only a Fetch shows what exists.
func adviseDeletion(last client.Answer, fetch finding, hasTombstones bool) advice {
	says := saidByLast(last, hasTombstones)
	if says == saysHeld && !hasTombstones {
		says = saysNothing
	}
	switch {
	case areContrary(says, fetch):
		return askWhoIsRight
	case says == saysPending && last.State == "in progress":
		return waitForBroker
	case says == saysOther:
		return askAboutOther
	case says == saysHeld || fetch == saysHeld:
		return repairWhole
	case says == saysPending && last.State == "failed":
		return repairPart
	case says == saysNone && hasTombstones:
		return retryNothing
	}
	return askWhetherExists
}

// circumstances are what else the advice depends on.
type circumstances struct {
	isFetched     bool // a Fetch was answered
	hasTombstones bool // the broker never creates an id again
	isOwnID       bool // the id was made up here
	isOthers      bool // this order hasn't created what the broker holds
}

// isOthers reports whether the creation was rejected because of what the broker held. A broker with tombstones answers
// a repeated creation as it answered the first one, so a 409 is about something else. Another broker may answer 409 to
// its own creation.
func (q question) isOthers() bool {
	failure := q.entry.Failure
	return q.hasTombstones() && failure.Status == http.StatusConflict &&
		(failure.Kind == "provision" || failure.Kind == "bind")
}

// advice is the sentence that leads on for a row that waits for a decision or is to be deleted, or empty. fetched is
// nil if nothing was fetched.
func (q question) advice(last client.Answer, fetched *client.Answer) string {
	known := circumstances{
		isFetched: fetched != nil, hasTombstones: q.hasTombstones(), isOwnID: q.entry.IsOwnID, isOthers: q.isOthers(),
	}
	var chosen advice
	switch q.entry.State {
	case platform.Unsettled:
		if !q.entry.Rests() {
			return ""
		}
		chosen = advise(saidByLast(last, known.hasTombstones), saidByFetch(fetched), known)
	case platform.Cleaning, platform.CleaningPolling:
		chosen = adviseDeletion(last, saidByFetch(fetched), known.hasTombstones)
	default:
		return ""
	}
	id, remove := printable(idOf(q.entry)), "remove"
	if q.entry.Key.IsBinding {
		remove = "unbind"
	}
	return strings.NewReplacer("REMOVE", "osb-platform "+remove, "ID", id).Replace(advices[chosen])
}

// advices are the sentences. REMOVE stands for the command that deletes, and ID for the id.
var advices = map[advice]string{
	askOperator: "the answer doesn't say what the broker holds: ask its operator",
	askAboutContrary: "the answers contradict each other: the last operation and the Fetch don't agree on what the " +
		"broker holds. Delete nothing: ask its operator",
	askAboutGone: "at this broker a 410 may say only that it knows no operation, and the id was chosen, so it may be " +
		"another platform's. Ask its operator what it holds under this id",
	leaveOrAbandon: "the broker holds something else under this id. Leave it, or end the record: 'osb-platform abandon " +
		"ID --because TEXT'",
	removeIfYours: "the broker holds it. If it is yours, run 'REMOVE ID': that deletes it at the broker",
	removeYours:   "the broker holds it, and nobody else has this id. Run 'REMOVE ID': that deletes it at the broker",
	removeNothing: "the broker has nothing. Run 'REMOVE ID': the record becomes gone",
	removeWhateverIs: "the answer doesn't say what the broker holds, but nobody else has this id. Run 'REMOVE ID': " +
		"that deletes it at the broker if it exists",
	waitForBroker: "the broker works on it: run 'osb-platform ask ID' again later",
	retryNothing:  "the broker has nothing. Run 'osb-platform retry ID': the record becomes gone",
	repairPart: "the last operation has failed, and a part of it may exist. Ask the broker's operator to repair that, and " +
		"then run 'osb-platform retry ID'",
	repairWhole: "it exists. 'osb-platform show ID' says in 'last reason' why it isn't deleted. Once the broker's operator " +
		"has repaired that, run 'osb-platform retry ID'",
	askAboutOther: "the broker holds something else under this id. Ask its operator whether anything of yours is left. " +
		"If not, end the record: 'osb-platform abandon ID --because TEXT'",
	askWhoIsRight: "the answers contradict each other: the last operation and the Fetch don't agree on what the broker " +
		"holds. The platform goes on with the deletion. Ask the broker's operator whether it exists",
	askWhetherExists: "the answers don't say whether it exists. Ask the broker's operator. If it exists, 'last reason' of " +
		"'osb-platform show ID' is what to repair. Then run 'osb-platform retry ID'",
}

// askCommand asks a broker for the last operation of one row.
func askCommand(a *app) *cobra.Command {
	files, allowHTTP := client.Files{}, false
	made := &cobra.Command{
		Use:   "ask ID",
		Short: "Ask the broker for the last operation of an instance or a binding",
		Long: `Ask the broker for the last operation of an instance or a binding, and print what it answers,
each fact on a line with its name before a tab. If the catalogue says that the instance or the binding is retrievable,
it is fetched, too. Its parameters and credentials aren't printed.

Only GET is sent, and the record stays as it is. For what is unsettled or is to be deleted, the last fact says what to
do next. If the answers contradict each other, no deletion is advised.`,
		Example: `  osb-platform ask my-database`,
		Args:    wants("ID"),
		RunE: a.over(needsKey, func(ctx context.Context, c *cobra.Command, s session, arguments []string) error {
			asking, err := s.asking(files, allowHTTP, warner(c.ErrOrStderr()))
			if err != nil {
				return err
			}
			defer asking.Close()
			it, err := s.question(ctx, arguments[0])
			if err != nil {
				return err
			}
			facts, err := it.ask(ctx, asking)
			for _, fact := range facts {
				if _, err := fmt.Fprintf(c.OutOrStdout(), "%s\t%s\n", fact[0], fact[1]); err != nil {
					return err
				}
			}
			return err
		}),
	}
	made.Flags().SortFlags = false
	addTLS(made.Flags(), &files)
	made.Flags().BoolVar(&allowHTTP, "allow-http", false, "allow http:// for a broker that isn't on this machine")
	return made
}

// asking is a client with the passwords of the store, and that of the environment for the broker of `run --broker`.
func (s session) asking(files client.Files, allowHTTP bool, warn func(string)) (*client.Client, error) {
	own, err := takePassword()
	if err != nil {
		return nil, err
	}
	asking, err := client.New(client.Options{
		Password: passwordsOf(own, client.NewPasswords(s.vault, warn, s.keys...)), TLS: files, AllowHTTP: allowHTTP,
		CatalogueTime: askTime,
	})
	return asking, cli.Unusable(err)
}

// A question is a row that a broker is asked about.
type question struct {
	entry  platform.Entry
	broker platform.Broker
}

// question is the one about the row of an id. Nothing is sent.
//
// Errors: a Rejection if the id is unknown, or nothing was sent for it; that the row can't be read, or that there is no
// key to open the password with.
func (s session) question(ctx context.Context, id string) (question, error) {
	entry, err := readEntry(ctx, s.store, id)
	switch {
	case err != nil:
		return question{}, err
	case entry.Unreadable != "":
		return question{}, fmt.Errorf("%s: %s", printable(idOf(entry)), unreadable(entry))
	case !entry.IsSent:
		text := fmt.Sprintf("%s is %s: nothing was sent for it, so the broker can't know it", printable(idOf(entry)),
			entry.State)
		return question{}, &platform.Rejection{Kind: platform.Conflict, Text: text}
	}
	broker, err := brokerOf(ctx, s.store, entry.Broker)
	if err == nil && broker.Password != nil && s.vault == nil {
		err = cli.Unusable(errors.New("name the file with the key that encrypted the broker's password: " +
			"--key-file FILE"))
	}
	return question{entry: entry, broker: broker}, err
}

// ask asks the broker, and returns what it has answered as facts, each with its name before it.
//
// Errors: a Rejection if there is no answer. The facts that are known are returned, too.
func (q question) ask(ctx context.Context, asking *client.Client) (facts [][2]string, err error) {
	add := func(name, text string) {
		if text != "" {
			facts = append(facts, [2]string{name, text})
		}
	}
	add("id", printable(idOf(q.entry)))
	add("state", string(q.entry.State))
	add("broker", printable(q.entry.Broker))
	last, err := asking.LastOperation(ctx, q.broker, q.entry)
	if err != nil {
		return facts, q.noAnswer(err)
	}
	for _, fact := range factsOf("last operation", last) {
		add(fact[0], fact[1])
	}
	var fetched *client.Answer
	if q.isRetrievable() {
		answer, err := asking.Fetch(ctx, q.broker, q.entry)
		if err != nil {
			return facts, q.noAnswer(err)
		}
		for _, fact := range factsOf("fetch", answer) {
			add(fact[0], fact[1])
		}
		fetched = &answer
	}
	add("what to do", q.advice(last, fetched))
	return facts, nil
}

// noAnswer is the Rejection of a broker that hasn't answered.
func (q question) noAnswer(err error) error {
	return &platform.Rejection{Kind: platform.Conflict, Text: printable(fmt.Sprintf("the broker %s hasn't answered: %v",
		q.broker.Name, err))}
}

// factsOf are what an answer says. Each has the name of the question before it.
func factsOf(name string, told client.Answer) [][2]string {
	unsure := ""
	if told.IsUnsure {
		unsure = "the answer isn't surely the broker's: a gateway may have given it"
	}
	return [][2]string{
		{name + " status", strconv.Itoa(told.Status)}, {name + " state", told.State},
		{name + " error", printable(told.Error)}, {name + " description", printable(told.Description)},
		{name + " answer", unsure},
	}
}

// isRetrievable reports whether the broker serves the Fetch of the row.
func (q question) isRetrievable() bool {
	catalogue, err := platform.ReadCatalogue(q.broker.Catalogue)
	if err != nil {
		return false
	}
	service := catalogue.Service(q.entry.Names.Service)
	switch {
	case service == nil:
		return false
	case q.entry.Key.IsBinding:
		return service.IsRetrievable
	}
	return service.InstancesRetrievable
}

// hasTombstones reports whether the broker's catalogue says that it has tombstones.
func (q question) hasTombstones() bool {
	catalogue, err := platform.ReadCatalogue(q.broker.Catalogue)
	return err == nil && catalogue.HasTombstones
}
