package platform

import (
	"context"
	"encoding/json"
	"errors"
	"fmt"
	"net"
	"net/url"
	"regexp"
	"strconv"
	"strings"
	"time"
	"unicode/utf8"
)

// A Broker is one that orders go to.
type Broker struct {
	Name string // 1 to 63 characters: a-z, 0-9 and hyphens
	URL  string // up to before /v2, as https://broker.example/postgres

	User     string
	Password []byte // sealed; or nil, and then PasswordFile names a file
	// PasswordFile is the path of a file with the password, as each worker has it, or empty.
	PasswordFile string

	Settings Settings
	// Store is the id of the store that the broker has named in its catalogue, or empty if it has named none. No answer
	// of a broker that names another one is taken.
	Store       string
	Catalogue   json.RawMessage // the last that the broker has answered, or nil
	CatalogueAt time.Time
	// Reason is why the catalogue couldn't be read last, or zero.
	Reason Reason
}

// Settings are how a broker is asked. A nil one stands for what the program or the broker's catalogue says.
type Settings struct {
	// Hold is for how long after a creation has left no deletion is sent. At a broker whose catalogue says
	// x-osb-tombstones it is 0 if nothing is set, and else 300 s (docs/premises.md).
	Hold *time.Duration `json:"hold,omitempty"`
	// FirstPace and LongestPace are the times until the next request: the first, and what it grows to by doubling.
	FirstPace   *time.Duration `json:"first_pace,omitempty"`
	LongestPace *time.Duration `json:"longest_pace,omitempty"`
	// LongestPoll is how long an operation is polled.
	LongestPoll *time.Duration `json:"longest_poll,omitempty"`
}

// BrokerColumns are the columns of a Broker.
var BrokerColumns = Columns[Broker]{
	column("name", func(b *Broker) *string { return &b.Name }).notNull(),
	column("url", func(b *Broker) *string { return &b.URL }).notNull(),
	column("username", func(b *Broker) *string { return &b.User }).notNull(),
	column("password", func(b *Broker) *[]byte { return &b.Password }),
	column("password_file", func(b *Broker) *string { return &b.PasswordFile }).notNull(),
	textColumn("settings", func(b *Broker) *settingsText { return (*settingsText)(b) }),
	textColumn("catalogue", func(b *Broker) *jsonText { return (*jsonText)(&b.Catalogue) }),
	column("catalogue_at", func(b *Broker) *time.Time { return &b.CatalogueAt }),
	textColumn("reason", func(b *Broker) *reasonText { return (*reasonText)(&b.Reason) }),
}

// A settingsText is Broker.Settings and Broker.Store.
type settingsText Broker

// keptSettings are a settingsText in JSON.
type keptSettings struct {
	Settings
	Store string `json:"store,omitempty"`
}

func (s *settingsText) MarshalText() ([]byte, error) {
	return json.Marshal(keptSettings{s.Settings, s.Store})
}

// UnmarshalText reads what MarshalText has written, also in version 0.3, which wrote no Store.
func (s *settingsText) UnmarshalText(text []byte) error {
	var kept keptSettings
	err := json.Unmarshal(text, &kept)
	s.Settings, s.Store = kept.Settings, kept.Store
	return err
}

// StoreHeader is the header of an answer that names the store of the broker, and of a request that names the recorded
// one. The member x-osb-store of the catalogue says which store that is. All are this project's choice.
const StoreHeader = "X-Osb-Store"

// storeID is how the id of a store looks: it stands in a command that an operator copies.
var storeID = regexp.MustCompile(`^[A-Za-z0-9][A-Za-z0-9._-]{0,199}$`)

// ErrOtherStore reports an answer of a broker over another store than the recorded one, or of somebody who doesn't name
// the store, such as a proxy.
var ErrOtherStore = errors.New("the answer isn't that of the broker's store")

// otherStore is ErrOtherStore, with what an operator can do.
type otherStore struct{ text string }

func (o otherStore) Error() string { return ErrOtherStore.Error() + ": " + o.text }

func (o otherStore) Is(target error) bool { return target == ErrOtherStore }

// CheckStore returns nil if an answer with these values of StoreHeader is that of the broker's store. A broker that has
// named none is believed.
//
// Errors: ErrOtherStore (by errors.Is).
func (b Broker) CheckStore(named []string) error {
	if b.Store == "" {
		return nil
	}
	if len(named) == 0 {
		return otherStore{fmt.Sprintf("it has no header %s, and the store %s is recorded. A proxy may have answered",
			StoreHeader, b.Store)}
	}
	for _, dated := range named {
		if dated != b.Store {
			return b.namesAnother(dated)
		}
	}
	return nil
}

// namesAnother is the error of a broker that names another store, or none if that is empty.
func (b Broker) namesAnother(named string) error {
	accepts, names := named, "the store "+named
	switch {
	case named == "":
		accepts, names = NoStore, "no store any more"
	case !storeID.MatchString(named):
		return otherStore{fmt.Sprintf("the broker names a store by an id that can't be used, and %s is recorded", b.Store)}
	}
	return otherStore{fmt.Sprintf("the broker names %s, and %s is recorded. Another broker would answer that each "+
		"instance is gone: check the URL, and the store of the broker. If the instances are there: osb-platform broker "+
		"set %s --accept-store %s", names, b.Store, b.Name, accepts)}
}

// NoStore stands for no store, where an operator names the one that a broker may have.
const NoStore = "none"

// AcceptStore has answers taken of the store with this id, or of any for NoStore.
//
// Errors: a Rejection if it is no id of a store.
func (b *Broker) AcceptStore(id string) error {
	if !storeID.MatchString(id) {
		return reject(Invalid, "the id of a store has 1 to 200 letters, digits, points, hyphens and underscores; %s is for "+
			"a broker that names none", NoStore)
	}
	if b.Store = id; id == NoStore {
		b.Store = ""
	}
	return nil
}

// StoreOf is the store that a catalogue names in its member x-osb-store, or empty if it names none, by an id that can
// be used.
func StoreOf(document json.RawMessage) string {
	var read struct {
		Store any `json:"x-osb-store"`
	}
	_ = json.Unmarshal(document, &read) // what can't be read names no store
	named, _ := read.Store.(string)
	if named == NoStore || !storeID.MatchString(named) {
		return ""
	}
	return named
}

// CheckCatalogue returns nil if a catalogue with these values of StoreHeader is that of the broker's store. The first
// catalogue that names a store says which one that is (StoreOf).
//
// Errors: ErrOtherStore (by errors.Is), also if the header names another store than the catalogue, or none.
func (b Broker) CheckCatalogue(document json.RawMessage, headers []string) error {
	named := StoreOf(document)
	switch {
	case b.Store != "" && named != b.Store:
		return b.namesAnother(named)
	case named != "" && len(headers) == 0:
		return otherStore{fmt.Sprintf("the catalogue names the store %s, and the answer has no header %s: have the proxy "+
			"before the broker pass this header", named, StoreHeader)}
	}
	for _, header := range headers {
		if named != "" && header != named {
			return otherStore{fmt.Sprintf("the catalogue names the store %s, and the header %s another one", named,
				StoreHeader)}
		}
	}
	return nil
}

// PasswordContext is the context under which the password of a broker is sealed: it can't be opened for another URL, or
// for another user. No key of a row is like it, and no two brokers have the same.
func PasswordContext(broker Broker) string {
	context := append(make([]byte, 0, 256), "password"...)
	for _, text := range [...]string{broker.Name, broker.URL, broker.User} {
		context = append(strconv.AppendInt(append(context, ' '), int64(len(text)), 10), ':')
		context = append(context, text...)
	}
	return string(context)
}

// longestSetting is the greatest time that a setting of a broker may have.
const longestSetting = 366 * 24 * time.Hour

var brokerName = regexp.MustCompile(`^[a-z0-9-]{1,63}$`)

// AddBroker writes down a broker. password is in clear, or nil if PasswordFile is given.
//
// Errors: a Rejection if the name is malformed or taken, CheckURL rejects the URL or it ends with /v2, or a password is
// given and there is no vault; those of the Store.
func (o *Orders) AddBroker(ctx context.Context, broker Broker, password []byte) error {
	broker.Password, broker.Catalogue, broker.CatalogueAt, broker.Reason = nil, nil, time.Time{}, Reason{}
	broker.Store = "" // its first catalogue names it
	if err := o.finish(&broker, password, true, true); err != nil {
		return err
	}
	err := o.store.AddBroker(ctx, broker)
	if errors.Is(err, ErrUsed) {
		return reject(Conflict, "there is a broker %s already", broker.Name)
	}
	return err
}

// SetBroker changes a broker: change gets it as it is, and password is the new one in clear, or nil to keep the old
// one. change may be called more than once; the last call counts. If the URL or the user changes, a password that is
// kept is sealed again. That needs the vault.
//
// Errors: those of AddBroker; a Rejection if it is unknown, or a password that is kept can't be opened.
func (o *Orders) SetBroker(ctx context.Context, name string, change func(*Broker) error, password []byte) error {
	if name == "" {
		return reject(Invalid, "name the broker to change")
	}
	err := o.store.ChangeBroker(ctx, name, func(broker Broker) (*Broker, error) {
		err := o.set(&broker, change, password)
		return &broker, err
	})
	if errors.Is(err, ErrUnknown) {
		return reject(NotFound, "the broker %q is unknown", name)
	}
	return err
}

// set changes a broker that was read.
func (o *Orders) set(broker *Broker, change func(*Broker) error, password []byte) error {
	before := *broker
	name, url, file := broker.Name, broker.URL, broker.PasswordFile
	hasPassword := broker.Password != nil || file != ""
	if err := change(broker); err != nil {
		return err
	}
	if broker.Name != name {
		return reject(Invalid, "a broker keeps its name: orders name it")
	}
	switch {
	case password != nil && broker.PasswordFile == file:
		broker.PasswordFile = ""
	case password == nil && broker.PasswordFile != "":
		broker.Password = nil
	}
	broker.URL = strings.TrimRight(broker.URL, "/")
	if password == nil && broker.Password != nil && PasswordContext(*broker) != PasswordContext(before) {
		var err error
		if password, err = o.sealPassword(before, *broker); err != nil {
			return err
		}
	}
	return o.finish(broker, password, hasPassword, strings.TrimRight(broker.URL, "/") != url)
}

// sealPassword is the password of a broker whose URL or user changes. If somebody has changed these in the store, it is
// sealed for those that the broker gets back.
func (o *Orders) sealPassword(before, after Broker) ([]byte, error) {
	if o.vault == nil {
		return nil, reject(Conflict, "the password of the broker %s is encrypted for its URL and its user: give the "+
			"program the key, or the broker its password again", before.Name)
	}
	password, err := o.vault.Open(before.Password, PasswordContext(before))
	if err != nil {
		password, err = o.vault.Open(before.Password, PasswordContext(after))
	}
	if err != nil {
		return nil, reject(Conflict, "the password of the broker %s can't be decrypted: %v. Give it again",
			before.Name, err)
	}
	return password, nil
}

// DropBroker forgets a broker of which nothing was ever ordered.
//
// Errors: a Rejection; those of the Store.
func (o *Orders) DropBroker(ctx context.Context, name string) error {
	err := o.store.DropBroker(ctx, name)
	switch {
	case errors.Is(err, ErrUnknown):
		return reject(NotFound, "the broker %q is unknown", name)
	case errors.Is(err, ErrUsed):
		return reject(Conflict, "there are orders of the broker %s: it can't be dropped", name)
	}
	return err
}

// finish checks a broker, and seals its password. A broker of version 0.2 may have none: then the program has it. A URL
// that isn't new was allowed before.
func (o *Orders) finish(broker *Broker, password []byte, needsPassword, isNewURL bool) error {
	if !brokerName.MatchString(broker.Name) {
		return reject(Invalid, "the name of a broker has 1 to 63 characters: a-z, 0-9 and hyphens")
	}
	if isNewURL {
		if err := CheckURL(broker.URL, o.allowsHTTP); err != nil {
			return err
		}
		if err := checkEnd(broker.URL); err != nil {
			return err
		}
	}
	broker.URL = strings.TrimRight(broker.URL, "/")
	if broker.User == "" || strings.ContainsAny(broker.User, ":\x00") || !utf8.ValidString(broker.User) {
		return reject(Invalid, "the user at a broker is UTF-8, isn't empty, and has neither a colon nor a NUL")
	}
	if err := checkSettings(broker.Settings); err != nil {
		return err
	}
	switch {
	case password != nil && broker.PasswordFile != "":
		return reject(Invalid, "give a password or a file with it, not both")
	case needsPassword && password == nil && broker.PasswordFile == "" && broker.Password == nil:
		return reject(Invalid, "the broker %s has no password: give it one, or a file with it", broker.Name)
	case password == nil:
		return nil
	case len(password) == 0:
		return reject(Invalid, "the password is empty")
	case o.vault == nil:
		return reject(Conflict, "there is no key to keep a password with: give the program one, or name a file")
	}
	sealed, err := o.vault.Seal(password, PasswordContext(*broker))
	if err != nil {
		return err
	}
	broker.Password = sealed
	return nil
}

func checkSettings(settings Settings) error {
	for _, test := range []struct {
		name  string
		set   *time.Duration
		least time.Duration
	}{
		{"hold", settings.Hold, 0}, {"first pace", settings.FirstPace, time.Millisecond},
		{"longest pace", settings.LongestPace, time.Millisecond}, {"longest poll", settings.LongestPoll, time.Second},
	} {
		if test.set != nil && (*test.set < test.least || *test.set > longestSetting) {
			return reject(Invalid, "the %s of a broker is between %v and a year", test.name, test.least)
		}
	}
	return nil
}

// CheckURL returns nil if a broker can have a URL: http or https, a host, and nothing else but a port and a path. What
// stands before /v2 is given. http is allowed only if the host is this machine (localhost, or a loopback address), or
// if allowHTTP is true: otherwise everybody on the way could read the password.
//
// Errors: a Rejection, which says what is wrong and what to do. None contains a password that stands in the URL.
func CheckURL(text string, allowHTTP bool) error {
	if strings.Trim(text, printable) != "" {
		return reject(Invalid, "the URL of a broker has a space, a control character, or one that isn't ASCII: "+
			"write it with percent-encoding")
	}
	read, err := url.Parse(text)
	if err != nil {
		return reject(Invalid, "the URL of a broker can't be read: write one such as https://broker.example/postgres")
	}
	if err := checkParts(text, read); err != nil {
		return err
	}
	if err := checkPath(strings.TrimSuffix(read.EscapedPath(), "/")); err != nil {
		return err
	}
	if host := read.Hostname(); read.Scheme == "http" && !allowHTTP && !isHere(host) {
		return reject(Invalid, "with http:// everybody on the way to %s reads the password: use https://, or "+
			"--allow-http if that network is safe", host)
	}
	return nil
}

// printable are the characters of a URL: those of ASCII but the space and the control characters.
var printable = func() string {
	var all []byte
	for character := byte('!'); character <= '~'; character++ {
		all = append(all, character)
	}
	return string(all)
}()

func checkParts(text string, read *url.URL) error {
	switch {
	case read.Scheme != "https" && read.Scheme != "http" || read.Opaque != "" || read.Hostname() == "":
		return reject(Invalid, "the URL of a broker must begin with https:// and a host, such as "+
			"https://broker.example/postgres")
	case read.User != nil:
		return reject(Invalid, "the URL of a broker must have no user and no password: give them beside it")
	case strings.ContainsAny(text, "?#"):
		return reject(Invalid, "the URL of a broker must have no query and no fragment")
	}
	if port := read.Port(); port != "" || strings.HasSuffix(read.Host, ":") {
		if number, err := strconv.ParseUint(port, 10, 16); err != nil || number == 0 {
			return reject(Invalid, "the port in the URL of a broker must be a number from 1 to 65535")
		}
	}
	return nil
}

// checkPath rejects a path that servers and gateways may take for another one.
func checkPath(path string) error {
	if path == "" {
		return nil
	}
	for _, part := range strings.Split(path, "/")[1:] {
		if plain, err := url.PathUnescape(part); err != nil || plain == "" || plain == "." || plain == ".." {
			return reject(Invalid, "the path in the URL of a broker must have no empty part, and neither . nor .. "+
				"as one")
		}
	}
	return nil
}

// checkEnd rejects a URL that ends with /v2: whoever adds a broker so means the URL without it. A URL that was stored
// before is kept.
func checkEnd(text string) error {
	if strings.HasSuffix(strings.TrimRight(text, "/"), "/v2") {
		return reject(Invalid, "the URL of a broker ends before /v2, which each request adds: leave the /v2 out")
	}
	return nil
}

// isHere reports whether a host is this machine.
func isHere(host string) bool {
	ip := net.ParseIP(host)
	return ip != nil && ip.IsLoopback() || strings.EqualFold(host, "localhost")
}
