package postgres

import (
	"context"
	"database/sql"
	"encoding/json"
	"errors"
	"fmt"
	"net/http"
	"strconv"
	"time"

	"pippinterm/broker"
	"pippinterm/internal/crash"
	"pippinterm/internal/pg"
	"pippinterm/osb"
)

// Limits are those of a plan, or of a database that is sold.
type Limits struct {
	// Connections is how many connections each role may have, and each database. Of a plan, 0 stands for
	// Options.ConnectionsPerInstance.
	Connections int
	// StatementTimeout is how long a statement of a customer runs at most, in whole milliseconds, or 0 for no limit. A
	// customer can change it.
	StatementTimeout time.Duration
}

// planMember is the member of a plan in a catalogue that has its limits. It is this project's choice.
const planMember = "x-osb-postgresql"

// A limitsMember has limits as JSON: those of a plan in a catalogue, and those that parameters ask for.
type limitsMember struct {
	Connections *int   `json:"connection_limit"`
	Timeout     *int64 `json:"statement_timeout"` // in milliseconds
}

// ReadPlans returns the limits of the plans of a catalogue's document that have the member x-osb-postgresql: an object
// with connection_limit, a number from 1, and statement_timeout, a number of milliseconds from 1. Both may be missing.
//
// Errors: the document can't be read; the limits of a plan aren't such an object.
func ReadPlans(document []byte) (map[string]Limits, error) {
	var read struct {
		Services []struct {
			Plans []map[string]json.RawMessage `json:"plans"`
		} `json:"services"`
	}
	if err := json.Unmarshal(document, &read); err != nil {
		return nil, fmt.Errorf("the catalogue can't be read: %w", err)
	}
	plans := map[string]Limits{}
	for _, service := range read.Services {
		for _, plan := range service.Plans {
			text, hasLimits := plan[planMember]
			if !hasLimits {
				continue
			}
			var id string
			_ = json.Unmarshal(plan["id"], &id) // the catalogue is checked by others
			limits, err := limitsIn(text, Limits{})
			if err != nil {
				return nil, fmt.Errorf("plan %q: %s %w", id, planMember, err)
			}
			plans[id] = limits
		}
	}
	return plans, nil
}

// limitsIn are the limits that an object names, and else these.
func limitsIn(text json.RawMessage, otherwise Limits) (Limits, error) {
	var named limitsMember
	if err := json.Unmarshal(text, &named); err != nil {
		return otherwise, errors.New("isn't an object with numbers")
	}
	if named.Connections != nil {
		if otherwise.Connections = *named.Connections; otherwise.Connections < 1 {
			return otherwise, errors.New("has a connection_limit below 1")
		}
	}
	if named.Timeout != nil {
		if *named.Timeout < 1 || *named.Timeout > longestTimeout {
			return otherwise, fmt.Errorf("has a statement_timeout that isn't from 1 to %d milliseconds", longestTimeout)
		}
		otherwise.StatementTimeout = time.Duration(*named.Timeout) * time.Millisecond
	}
	return otherwise, nil
}

const longestTimeout = 1<<31 - 1 // in milliseconds, as PostgreSQL has it

// limitsOf are the limits of a database with these settings: those of its plan, or lower ones that the parameters ask
// for.
//
// Errors: a *broker.Rejection if the parameters ask for more than the plan has.
func (d *Databases) limitsOf(settings broker.Settings) (Limits, error) {
	most := d.options.Plans[settings.PlanID]
	if most.Connections == 0 {
		most.Connections = d.options.ConnectionsPerInstance
	}
	if settings.Parameters == nil {
		return most, nil
	}
	limits, err := limitsIn(settings.Parameters, most)
	switch {
	case err != nil:
		err = fmt.Errorf("parameters %w", err)
	case limits.Connections > most.Connections:
		err = fmt.Errorf("the plan has at most %d connections", most.Connections)
	case most.StatementTimeout > 0 && limits.StatementTimeout > most.StatementTimeout:
		err = fmt.Errorf("the plan has a statement_timeout of at most %d milliseconds", most.StatementTimeout.Milliseconds())
	default:
		return limits, nil
	}
	return limits, &broker.Rejection{Status: http.StatusBadRequest, Description: "The " + err.Error() + "."}
}

// timeoutStatement sets how long the statements of a database run. It is for new sessions.
func timeoutStatement(name string, limits Limits) string {
	if limits.StatementTimeout == 0 {
		return "ALTER DATABASE " + name + " RESET statement_timeout"
	}
	return "ALTER DATABASE " + name + " SET statement_timeout = '" +
		strconv.FormatInt(limits.StatementTimeout.Milliseconds(), 10) + "ms'"
}

// LookUpdate returns how much of an update is done, as broker.UpdateBackend says: by the row of osb_settings, which is
// written in the transaction that changes the limits.
//
// Errors: ErrForeign; those of the server.
func (d *Databases) LookUpdate(ctx context.Context, update broker.Update) (broker.There, error) {
	conn, f, err := instance(ctx, update.Request)
	if err != nil || f.there() != broker.Whole {
		return broker.Part, err
	}
	var has string
	err = conn.QueryRowContext(ctx, "SELECT settings FROM osb_settings WHERE instance = $1", update.Key.Instance).Scan(&has)
	if err != nil && !errors.Is(err, sql.ErrNoRows) {
		return broker.Part, err
	}
	return update.Done(has)
}

// Update changes the limits of a database and of its roles, in one transaction. Sessions that are open stay: a lower
// limit of connections counts for new ones, and so does the statement_timeout.
//
// Errors: a *broker.Rejection if the parameters ask for more than the plan has; ErrForeign; that there is no such
// database; those of the server. If the transaction fails, the database is as it was (broker.Unharmed).
func (d *Databases) Update(ctx context.Context, update broker.Update) error {
	limits, err := d.limitsOf(update.To)
	if err != nil {
		return err
	}
	conn, f, err := instance(ctx, update.Request)
	if err == nil && f.there() != broker.Whole {
		err = fmt.Errorf("the database %s doesn't exist", f.name)
	}
	if err != nil {
		return err
	}
	bindings, err := bindingRoles(ctx, conn, f.name)
	if err == nil {
		err = rejoin(ctx, conn, append(bindings, f.name)...)
	}
	if err != nil {
		return err
	}
	err = persist(func() error { return changeLimits(ctx, conn, f.name, update, limits) })
	if err != nil {
		return broker.WithOutlook(err, broker.Unharmed())
	}
	return nil
}

// changeLimits is the transaction of an update.
func changeLimits(ctx context.Context, conn *sql.Conn, name string, update broker.Update, limits Limits) error {
	to, err := update.To.Text()
	if err != nil {
		return err
	}
	return pg.Transaction(ctx, conn, func(tx *sql.Tx) (bool, error) {
		if _, err := lockLimit(ctx, tx, update.Key); err != nil {
			return false, err
		}
		roles, err := bindingRoles(ctx, tx, name)
		if err != nil {
			return false, err
		}
		limit := " CONNECTION LIMIT " + strconv.Itoa(limits.Connections)
		statements := []string{"ALTER DATABASE " + quote(name) + limit, timeoutStatement(quote(name), limits)}
		for _, role := range append(roles, name) {
			statements = append(statements, "ALTER ROLE "+quote(role)+limit)
		}
		if err := execAll(ctx, tx, statements...); err != nil {
			return false, err
		}
		crash.At("work-half")
		_, err = tx.ExecContext(ctx, "INSERT INTO osb_settings VALUES ($1, $2) ON CONFLICT (instance) "+
			"DO UPDATE SET settings = excluded.settings", update.Key.Instance, to)
		return true, err
	})
}

// lockLimit is how many connections the role of an instance may have. Until the transaction ends, no update changes
// that: so the role of a binding that is created meanwhile gets the limit that the instance has then.
func lockLimit(ctx context.Context, tx *sql.Tx, instance broker.Key) (limit int, err error) {
	name := NameOf(osb.InstanceKey(instance.Instance))
	if _, err := tx.ExecContext(ctx, selectLimitTurn, name); err != nil {
		return 0, err
	}
	err = tx.QueryRowContext(ctx, "SELECT rolconnlimit FROM pg_roles WHERE rolname = $1", name).Scan(&limit)
	return limit, err
}

const selectLimitTurn = "SELECT pg_advisory_xact_lock(hashtextextended('osb limits ' || $1::text, 0))"
