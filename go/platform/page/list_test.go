package page

import (
	"context"
	"database/sql/driver"
	"fmt"
	"net/http"
	"net/url"
	"path/filepath"
	"sort"
	"strings"
	"testing"
	"time"

	"github.com/mattn/go-sqlite3"

	"pippinterm/internal/diff"
	"pippinterm/osb"
	"pippinterm/platform"
	"pippinterm/platform/api"
	"pippinterm/platform/sqlite"
)

func TestFind(t *testing.T) {
	store := shelf()
	named := entryOf(osb.InstanceKey(idOf(0x77)), platform.Ready)
	named.Names.Instance = "zebra"
	number := diff.Value(platform.ParseKey("zebra"))(t)
	named.Key = number
	store.rows = append(store.rows, named)
	hex := named // an id that is hexadecimal digits, too
	hex.Names.Instance = "fee1"
	hex.Key = diff.Value(platform.ParseKey("fee1"))(t)
	store.rows = append(store.rows, hex)
	h := pageOf(t, store, Options{})
	for find, want := range map[string]int{
		"0000000": 10, "00000005": 1, "00000005-0000": 1, "000000050000": 1, "+00000005+": 1, "00000051": 1, "fff": 0,
		"zebra": 1, "fee1": 1, "0000000A": 1, "00000005-0000-4000-8000-000000000005": 1, "nothing": 0, "a/b/c": 0, "%22": 0, "%00": 0,
	} {
		t.Run(find, func(t *testing.T) {
			text := pageText(t, h, "/?find="+find)
			diff.Equal(t, len(linesIn(text)), want, "")
		})
	}
	has(t, pageText(t, h, "/?find=00000051"), "of "+idOf(5).String())
}

// many are rows in three states, some of which changed to it at the same time.
func many(number int) *fake {
	store := &fake{now: now}
	for n := 0; n < number; n++ {
		e := entryOf(osb.InstanceKey(idOf(number-n)), platform.State(states[n%3]))
		e.Since = began.Add(time.Duration(n/7) * time.Second)
		store.rows = append(store.rows, e)
	}
	return store
}

// walk are the rows of all pages from a target on, by the links of this id. captions are those of the pages.
func walk(t *testing.T, h http.Handler, target, by string) (rows [][]string, captions []string) {
	t.Helper()
	for len(rows) <= 100 && target != "" {
		text := pageText(t, h, target)
		rows = append(rows, linesIn(text))
		_, caption, _ := strings.Cut(part(t, text, "instances"), "<caption>")
		caption, _, _ = strings.Cut(caption, ",")
		captions, target = append(captions, caption), linkOf(text, by)
	}
	return rows, captions
}

func join(pages [][]string) (all []string) {
	for _, page := range pages {
		all = append(all, page...)
	}
	return all
}

func backwards[T any](all []T) (found []T) {
	for at := range all {
		found = append(found, all[len(all)-1-at])
	}
	return found
}

// Each row is listed once, in either order and in either direction.
func TestPages(t *testing.T) {
	store := many(121)
	h := pageOf(t, store, Options{})
	want := []string{} // the oldest first
	for n := 0; n < 121; n += 7 {
		for m := 120; m >= 0; m-- {
			if m/7 == n/7 {
				want = append(want, idOf(121-m).String())
			}
		}
	}
	byNumber := append([]string{}, want...)
	sort.Strings(byNumber)
	for target, wanted := range map[string][]string{
		"/": backwards(want), "/?order=oldest": want, "/?order=number": byNumber,
	} {
		t.Run(target, func(t *testing.T) {
			pages, captions := walk(t, h, target, "page-next")
			diff.Check(t, join(pages), wanted, "the rows")
			diff.Check(t, captions, []string{"1 to 50 of 121", "51 to 100 of 121", "101 to 121 of 121"}, "the pages")
			last := linkOf(pageText(t, h, target), "page-last")
			pages, captions = walk(t, h, last, "page-previous")
			diff.Check(t, join(backwards(pages[:2])), wanted[21:], "backwards the last rows")
			diff.Check(t, pages[2], wanted[:50], "backwards the first rows")
			diff.Check(t, captions, []string{"72 to 121 of 121", "22 to 71 of 121", "1 to 50 of 121"}, "backwards the pages")
			begin, end := pageText(t, h, target), pageText(t, h, last)
			diff.Equal(t, linkOf(end, "page-first"), target, "the first page")
			for text, names := range map[string][]string{
				begin: {"page-first", "page-previous"}, end: {"page-next", "page-last"},
			} {
				for _, name := range names {
					diff.Equal(t, linkOf(text, name), "", "%s", name)
				}
			}
		})
	}
}

// The rows of one state have pages in both orders too, and so have bindings.
func TestPagesOfOneState(t *testing.T) {
	store := many(300)
	for n := 0; n < 60; n++ {
		e := entryOf(osb.BindingKey(idOf(1), idOf(0x1000+n)), platform.Ready)
		e.Since = began.Add(time.Duration(n) * time.Second)
		store.rows = append(store.rows, e)
	}
	h := pageOf(t, store, Options{})
	for target, number := range map[string]int{"/?state=ordered": 100, "/?kind=bindings": 60} {
		t.Run(target, func(t *testing.T) {
			newest, _ := walk(t, h, target, "page-next")
			oldest, _ := walk(t, h, linkOf(pageText(t, h, target), "order-oldest"), "page-next")
			diff.Equal(t, len(join(newest)), number, "rows")
			diff.Check(t, join(newest), backwards(join(oldest)), "the rows in one order and in the other")
		})
	}
}

// What fits on one page has no links to others, and a page that rows have left still has its links.
func TestFewRows(t *testing.T) {
	store := many(50)
	h := pageOf(t, store, Options{})
	for _, target := range []string{"/", "/?page=last", "/?find=0"} {
		if text := pageText(t, h, target); strings.Contains(text, `class="pages"`) || len(linesIn(text)) != 50 {
			t.Errorf("%s: got %s, want 50 rows and no links to pages", target, mainOf(text))
		}
	}
	store.rows = append(store.rows, many(51).rows[0]) // the second page has the oldest row alone, until it is gone
	store.rows[50].Key, store.rows[50].Since = osb.InstanceKey(idOf(0x51)), began.Add(-time.Hour)
	behind := linkOf(pageText(t, h, "/"), "page-next")
	store.rows = store.rows[:50]
	text := pageText(t, h, behind)
	if rows := linesIn(pageText(t, h, linkOf(text, "page-first"))); len(linesIn(text)) != 0 || len(rows) != 50 {
		t.Errorf("the first page: got %v, want 50 rows", rows)
	}
}

// What is asked for is written as what it is read from.
func TestTargets(t *testing.T) {
	const at = "eyJz-_0+ &="
	for _, a := range []target{
		{}, {state: "gone"}, {state: inFlight}, {find: "a b&c=<"}, {order: api.Oldest},
		{state: "ready", after: at, skipped: 3}, {order: api.ByNumber, isLast: true},
		{before: at, skipped: 50, order: api.Oldest}, {isLast: true, bindings: true}, {state: "gone", isStill: true},
	} {
		t.Run(a.target(), func(t *testing.T) {
			target := diff.Value(url.Parse(a.target()))(t)
			read := diff.Value(readAsked(target.Query()))(t)
			diff.Check(t, read, a, "%v", target)
		})
	}
}

// A page that isn't refreshed stays so by all its links but one.
func TestStill(t *testing.T) {
	h := pageOf(t, shelf(), Options{})
	for _, target := range []string{"/", "/?state=ready", pageOn(osb.InstanceKey(idOf(5)))} {
		text := pageText(t, h, target)
		has(t, text, `data-refresh="5"`, `http-equiv="refresh" content="15"`)
		still := pageText(t, h, linkOf(text, "refresh"))
		diff.Lacks(t, still, "data-refresh", "%s", target)
		diff.Lacks(t, still, "http-equiv", "%s", target)
		diff.Equal(t, linkOf(still, "refresh"), target, "")
	}
	text := pageText(t, h, "/?still=1")
	has(t, text, `<input type="hidden" name="still" value="1">`)
	for _, match := range links.FindAllStringSubmatch(text, -1) {
		if match[2] != "refresh" && !strings.Contains(match[1], "still=1") {
			t.Errorf("the link %s: got %s, which is refreshed, want one that stays", match[2], match[1])
		}
	}
}

func TestNoSuchPage(t *testing.T) {
	h := pageOf(t, shelf(), Options{})
	for _, target := range []string{
		"/x", "/instance/", "/instance/" + strings.Repeat("a", 256), "/instance/none", "/instance/a/b",
		"/instance/a/binding/", "/instance/a/binding/b/c", "/instance/" + idOf(5).String() + "?x=1", "/?state=lost",
		"/?x=1",
		"/?state=a&state=b", "/?after=x", "/?after=1_", "/?after=1e400_a", "/?from=-1", "/?from=x", "/?kind=x",
		"/?order=newest", "/?page=first", "/?before=x", "/?page=last&after=0_a", "/?before=0_a&after=0_a",
		"/?a=1;b",
		"/?find=" + strings.Repeat("a", 256),
		"/?after=" + strings.Repeat("9", 5000) + "_a",
	} {
		t.Run(fmt.Sprintf("%.80s", target), func(t *testing.T) {
			diff.Equal(t, answerTo(h, request("GET", target)).Code, 404, "%.80s", target)
		})
	}
}

func openStore(t *testing.T, path string) *sqlite.Store {
	t.Helper()
	store := diff.Value(sqlite.Open(background, path))(t)
	t.Cleanup(func() { check(t, store.Close()) })
	return store
}

// The page shows of a store in a file what it shows of a fake with the same rows.
func TestOverSQLite(t *testing.T) {
	kept := shelf()
	store := openStore(t, filepath.Join(t.TempDir(), "instances.sqlite"))
	for _, broker := range kept.brokers {
		check(t, store.AddBroker(background, broker))
	}
	for _, e := range kept.rows {
		if e.Key.IsBinding {
			e.IsOwnID = false
		}
		check(t, store.Insert(background, e, func(platform.Snapshot) error { return nil }))
	}
	one, other := pageOf(t, kept, Options{}), pageOf(t, store, Options{})
	for _, target := range []string{
		"/", "/?state=ready", "/?kind=bindings", "/?find=0000000", "/?state=in-flight", "/?state=gone",
	} {
		a, b := linesIn(pageText(t, one, target)), linesIn(pageText(t, other, target))
		diff.Equal(t, strings.Join(a, " "), strings.Join(b, " "), "%s", target)
	}
	text := pageText(t, other, "/")
	for _, state := range states {
		has(t, text, `id="go-`+string(state)+`"><strong>1</strong>`)
	}
	has(t, part(t, text, "waiting"), "1 unsettled", "The broker shut rejects")
	has(t, part(t, text, "flights"), "Provision", "worker-1")
	has(t, pageText(t, other, pageOn(osb.InstanceKey(idOf(5)))), `id="bindings"`, "1 binding")
	clean := func(now time.Time, snapshot platform.Snapshot) (*platform.Change, error) {
		snapshot.Entry.State, snapshot.Entry.Since = platform.Cleaning, now
		return &platform.Change{Entry: snapshot.Entry}, nil
	}
	check(t, store.Change(background, osb.InstanceKey(idOf(5)), clean))
	has(t, pageText(t, other, pageOn(osb.InstanceKey(idOf(5)))), "2 states", `<span class="state ready">`)
}

// While somebody turns the pages of a list, all instances in a state leave it. In each order, each instance of the first
// page's list is on one page.
func TestPagesWhileRowsMove(t *testing.T) {
	store := openStore(t, filepath.Join(t.TempDir(), "instances.sqlite"))
	check(t, store.AddBroker(background, shelf().brokers[0]))
	for _, e := range many(2*size + 20).rows {
		check(t, store.Insert(background, e, func(platform.Snapshot) error { return nil }))
	}
	h, moves := pageOf(t, store, Options{}), 0
	for _, target := range []string{"/", "/?order=oldest", "/?order=number", "/?state=ordered&order=oldest"} {
		filter := platform.Filter{}
		if strings.Contains(target, "state") {
			filter.States = []platform.State{platform.Ordered}
		}
		count, seen := len(diff.Value(store.Positions(background, filter))(t)), map[string]int{}
		for target != "" {
			text := pageText(t, h, target)
			for _, row := range linesIn(text) {
				seen[row]++
			}
			from, to := platform.State(states[moves%3]), platform.State(states[(moves+1)%3])
			moves++
			for _, at := range diff.Value(store.Positions(background, platform.Filter{States: []platform.State{from}}))(t) {
				check(t, store.Change(background, at.Key, func(now time.Time, snapshot platform.Snapshot) (*platform.Change, error) {
					snapshot.Entry.State, snapshot.Entry.Since = to, now
					return &platform.Change{Entry: snapshot.Entry}, nil
				}))
			}
			target = linkOf(text, "page-next")
		}
		for id, times := range seen {
			diff.Equal(t, times, 1, "the instance %s", id)
		}
		diff.Equal(t, len(seen), count, "%+v: the instances", filter)
	}
}

// copies makes copies of the rows of a file, until there are so many. Each has another id and another time.
const copies = `WITH RECURSIVE n(at) AS (SELECT 1 UNION ALL SELECT at + 1 FROM n WHERE at < 99990)
	INSERT INTO osb_instances (id, service, plan, further, record, state, since, removal, tries, broker, organization,
		space)
	SELECT lower(printf('%08x-0000-4000-8000-%012x', at * 2654435761 % 4294967296, at)), service, plan, further, record,
		state, since - at, removal, tries, broker, organization, space
	FROM n JOIN osb_instances AS i
		ON i.id = (SELECT id FROM osb_instances WHERE id LIKE printf('%08x-%%', at % 10 + 1))`

// large is a store with many rows, in all states.
func large(t *testing.T) *sqlite.Store {
	t.Helper()
	path := filepath.Join(t.TempDir(), "instances.sqlite")
	first := openStore(t, path)
	check(t, first.AddBroker(background, shelf().brokers[0]))
	for _, e := range shelf().rows {
		if e.Key.IsBinding {
			continue
		}
		e.Record, _ = osb.Create(e.Key.Instance, e.Service, e.Plan, true)
		e.IsSent, e.Lease = true, platform.Lease{}
		check(t, first.Insert(background, e, func(platform.Snapshot) error { return nil }))
	}
	raw := diff.Value((&sqlite3.SQLiteDriver{}).Open("file:" + path + "?_synchronous=OFF"))(t)
	defer raw.Close()
	for _, text := range []string{
		copies,
		"DELETE FROM osb_counts",
		"INSERT INTO osb_counts SELECT broker, 0, state, count(*) FROM osb_instances GROUP BY broker, state",
		"INSERT INTO osb_lives SELECT id, 1, 'ordered', since - 60 FROM osb_instances",
		"INSERT INTO osb_lives SELECT id, 2, 'wanted', since - 30 FROM osb_instances",
	} {
		_, err := raw.(driver.ExecerContext).ExecContext(background, text, nil) //nolint:staticcheck // no sql.DB here
		check(t, err)
	}
	return first
}

// A page is served soon, however many rows there are: the limit is that of a busy machine, with the race detector.
// checks/page measures the program.
func TestLargeStore(t *testing.T) {
	if testing.Short() {
		t.Skip("it makes 100,000 rows")
	}
	h := pageOf(t, large(t), Options{})
	text := pageText(t, h, "/")
	has(t, text, "<title>100,000 instances, 10,000 unsettled", "The first 5 of 10,000", "1 to 50 of 100,000")
	deep := pageText(t, h, "/?state=gone")
	for n := 0; n < 20; n++ {
		deep = pageText(t, h, linkOf(deep, "page-next"))
	}
	has(t, deep, "1,001 to 1,050 of 10,000")
	for _, target := range []string{
		"/", "/?state=gone", linkOf(deep, "page-next"), linkOf(text, "page-next"), "/?find=a", "/?find=00000005",
		linkOf(text, "i-"+linesIn(text)[0]), "/?state=in-flight", "/?kind=bindings", "/?page=last", "/?order=oldest",
		"/?state=gone&order=oldest&page=last",
	} {
		var times []time.Duration
		for n := 0; n < 5; n++ {
			began := time.Now()
			pageText(t, h, target)
			times = append(times, time.Since(began))
		}
		sort.Slice(times, func(a, b int) bool { return times[a] < times[b] })
		t.Logf("%s: %v", target, times[0])
		diff.AtMost(t, times[0], 2*time.Second, "%s", target)
	}
	checkEveryPage(t, h)
}

// The first ten pages and the last ten, in both orders, have no row twice. The last ones of an order are the first ones
// of the other.
func checkEveryPage(t *testing.T, h http.Handler) {
	t.Helper()
	seen := map[string]int{}
	for target, by := range map[string]string{
		"/": "page-next", "/?order=oldest": "page-next", "/?page=last": "page-previous",
		"/?order=oldest&page=last": "page-previous",
	} {
		for n := 0; n < 10; n++ {
			text := pageText(t, h, target)
			for _, row := range linesIn(text) {
				seen[row]++
			}
			target = linkOf(text, by)
		}
	}
	for id, times := range seen {
		diff.Equal(t, times, 2, "%s", id)
	}
	diff.Equal(t, len(seen), 1000, "rows on ten pages from each end")
}

// A fake is a Store that can only be read. What writes is nil, and panics.
type fake struct {
	platform.Store

	now     time.Time
	rows    []platform.Entry
	lives   map[platform.Key][]platform.Stay
	brokers []platform.Broker
	err     error                       // of each call, or nil
	wait    func(context.Context) error // called at the beginning of each request
}

func (f *fake) NextDue(ctx context.Context, _ []string) (due, now time.Time, err error) {
	if f.wait != nil {
		if err := f.wait(ctx); err != nil {
			return due, now, err
		}
	}
	return due, f.now, f.err
}

func (f *fake) Counts(context.Context) ([]platform.Count, error) {
	var found []platform.Count
	for _, e := range f.rows {
		found = append(found, platform.Count{
			Broker: e.Broker, IsBinding: e.Key.IsBinding, State: e.State, Count: 1, Oldest: e.Since,
		})
	}
	return found, f.err
}

func (f *fake) Read(_ context.Context, key platform.Key) (platform.Entry, error) {
	for _, e := range f.rows {
		if e.Key == key {
			return e, f.err
		}
	}
	return platform.Entry{}, platform.ErrUnknown
}

func (f *fake) Life(_ context.Context, key platform.Key) ([]platform.Stay, error) {
	return f.lives[key], f.err
}

func (f *fake) Brokers(context.Context) ([]platform.Broker, error) { return f.brokers, f.err }

func (f *fake) InFlight(_ context.Context, most int) (found []platform.Entry, err error) {
	for _, e := range f.rows {
		if e.Lease.Worker != "" && len(found) < most {
			found = append(found, e)
		}
	}
	return found, f.err
}

func less(order platform.Ordering, a, b platform.Position) bool {
	if a.State != b.State && order == platform.ByState {
		return a.State < b.State
	}
	if !a.Since.Equal(b.Since) && order != platform.ByKey {
		return a.Since.Before(b.Since)
	}
	return a.Key.String() < b.Key.String()
}

// comesBefore reports whether a position comes before another one in the order of a filter.
func comesBefore(filter platform.Filter, a, b platform.Position) bool {
	if filter.Latest {
		a, b = b, a
	}
	return less(filter.Order, a, b)
}

func positionIn(e platform.Entry) platform.Position {
	return platform.Position{State: e.State, Since: e.Since, Key: e.Key}
}

func (f *fake) Positions(_ context.Context, filter platform.Filter) (found []platform.Position, err error) {
	for _, e := range f.rows {
		if isChosen(filter, e) {
			found = append(found, positionIn(e))
		}
	}
	sort.Slice(found, func(a, b int) bool { return comesBefore(filter, found[a], found[b]) })
	if filter.Most > 0 && len(found) > filter.Most {
		found = found[:filter.Most]
	}
	return found, f.err
}

// Moment is any: no row of a fake changes.
func (f *fake) Moment(context.Context) (platform.Moment, error) { return "now", f.err }

func (f *fake) ReadAll(ctx context.Context, keys []platform.Key) (found []platform.Entry, err error) {
	for _, key := range keys {
		if e, err := f.Read(ctx, key); err == nil {
			found = append(found, e)
		}
	}
	return found, f.err
}

func isChosen(filter platform.Filter, e platform.Entry) bool {
	isOf := len(filter.States) == 0
	for _, state := range filter.States {
		isOf = isOf || state == e.State
	}
	return isOf && (filter.Bindings == nil || *filter.Bindings == e.Key.IsBinding) &&
		(filter.Instance == nil || e.Key.IsBinding && *filter.Instance == e.Key.Instance) &&
		(filter.First == nil || *filter.First == e.First) &&
		strings.HasPrefix(e.Key.ID().String(), filter.Prefix) &&
		(filter.After == nil || comesBefore(filter, *filter.After, positionIn(e)))
}
