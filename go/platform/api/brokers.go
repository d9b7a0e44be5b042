package api

import (
	"errors"
	"net/http"
	"net/url"
	"regexp"
	"strings"
	"time"

	"pippinterm/platform"
)

type newBroker struct {
	URL      string   `json:"url"`
	User     string   `json:"user"`
	Password string   `json:"password"`
	Settings Settings `json:"settings"`
}

// brokerList is how all brokers are answered.
type brokerList struct {
	Items []Broker `json:"items"`
}

func (a *request) listBrokers() (answer, error) {
	found, err := a.reader.Brokers(a.Context())
	return answerOK(brokerList{found}, err)
}

// broker is the broker that the path names, or nil.
func (a *request) broker() (*platform.Broker, error) {
	all, err := a.store.Brokers(a.Context())
	if err != nil {
		return nil, err
	}
	for at := range all {
		if all[at].Name == a.values["name"] {
			return &all[at], nil
		}
	}
	return nil, nil
}

func (a *request) showBroker() (answer, error) {
	broker, err := a.broker()
	if err != nil {
		return answer{}, err
	}
	if broker == nil {
		return answer{}, newProblem(http.StatusNotFound, "not_found", "there is no broker of this name")
	}
	shown := brokerOf(*broker, false)
	shown.Catalogue = broker.Catalogue
	return answer{status: http.StatusOK, body: shown}, nil
}

// putBroker adds a broker, or changes one. Who changes where the password is sent has to know it: otherwise a token
// that may write could have it sent to a server of its own.
func (a *request) putBroker() (answer, error) {
	var given newBroker
	if err := a.body(&given); err != nil {
		return answer{}, err
	}
	wanted, err := given.Settings.read()
	if err != nil {
		return answer{}, err
	}
	var password []byte
	if given.Password != "" {
		password = []byte(given.Password)
	}
	before, err := a.broker()
	if err != nil {
		return answer{}, err
	}
	isSealed := password != nil || before != nil && before.Password != nil && before.User != given.User
	if isSealed {
		if err := a.CheckKey(a.Context()); err != nil {
			return answer{}, err
		}
	}
	status, name := http.StatusOK, a.values["name"]
	if before == nil {
		status = http.StatusCreated
		if err := a.checkHost(given.URL); err != nil {
			return answer{}, err
		}
		err = a.orders.AddBroker(a.Context(), platform.Broker{
			Name: name, URL: given.URL, User: given.User, Settings: wanted,
		}, password)
	} else {
		err = a.orders.SetBroker(a.Context(), name, func(broker *platform.Broker) error {
			return a.change(given, broker, wanted)
		}, password)
	}
	if err == nil && isSealed { // the key may have been replaced meanwhile, and this password left out
		err = a.CheckKey(a.Context())
	}
	if err != nil {
		return answer{}, err
	}
	after, err := a.broker()
	switch {
	case err != nil:
		return answer{}, err
	case after == nil:
		return answer{}, errors.New("the broker was dropped just after it was written")
	}
	answered := answer{status: status, body: brokerOf(*after, false)}
	if status == http.StatusCreated {
		answered.location = brokers + "/" + url.PathEscape(name)
	}
	return answered, nil
}

// checkHost returns a problem unless a broker may be at a URL.
func (a *request) checkHost(url string) error {
	if a.BrokerHosts.Allows(url) {
		return nil
	}
	return newProblem(http.StatusBadRequest, "invalid", "no broker may be at the host of this URL: the program has the "+
		"option --broker-hosts, which doesn't name it")
}

func (a *request) change(s newBroker, broker *platform.Broker, wanted platform.Settings) error {
	if strings.TrimRight(s.URL, "/") != broker.URL {
		if s.Password == "" {
			return newProblem(http.StatusBadRequest, "password_needed",
				"the URL is another one: give the password, too, which is sent there")
		}
		if err := a.checkHost(s.URL); err != nil {
			return err
		}
	}
	broker.URL, broker.User, broker.Settings = s.URL, s.User, wanted
	if s.Password != "" {
		broker.PasswordFile = ""
	}
	return nil
}

// brokerName is how the name of a broker looks. PostgreSQL rejects a text that isn't UTF-8, or has a NUL.
var brokerName = regexp.MustCompile(`^[a-z0-9-]{1,63}$`)

func (a *request) dropBroker() (answer, error) {
	if !brokerName.MatchString(a.values["name"]) {
		return answer{}, newProblem(http.StatusNotFound, "not_found", "there is no broker of this name")
	}
	if err := a.orders.DropBroker(a.Context(), a.values["name"]); err != nil {
		return answer{}, err
	}
	return answer{status: http.StatusNoContent}, nil
}

// mostSettingSeconds is more than any setting may be.
const mostSettingSeconds = 1e9

func (s Settings) read() (platform.Settings, error) {
	var read platform.Settings
	for _, test := range []struct {
		name  string
		given *float64
		to    **time.Duration
	}{
		{"hold_seconds", s.Hold, &read.Hold}, {"first_pace_seconds", s.FirstPace, &read.FirstPace},
		{"longest_pace_seconds", s.LongestPace, &read.LongestPace},
		{"longest_poll_seconds", s.LongestPoll, &read.LongestPoll},
	} {
		if test.given == nil {
			continue
		}
		if *test.given < 0 || *test.given > mostSettingSeconds {
			return read, newProblem(http.StatusBadRequest, "invalid", test.name+" is between 0 and a year")
		}
		duration := time.Duration(*test.given * float64(time.Second)).Round(time.Millisecond)
		*test.to = &duration
	}
	return read, nil
}

func (a *request) counts() (answer, error) {
	return answerOK(a.reader.Counts(a.Context()))
}
