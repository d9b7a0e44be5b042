package run

import (
	"crypto/rand"
	"net/http"
	"os"
	"path/filepath"
	"strconv"
	"strings"

	"pippinterm/internal/cli"
	"pippinterm/internal/journalfile"
	"pippinterm/osb"
	"pippinterm/platform/journal"
)

// journals are those of a storm's platform, one for each run, and the one of the requests that osb-storm sends itself.
// Any number of goroutines use them. A nil journals writes nothing.
type journals struct {
	folder string
	ofOwn  *journalfile.Writer
	guard
	failed []string
}

// openJournals returns the journals below a folder, or nil if its name is empty.
func openJournals(below string) (*journals, error) {
	if below == "" {
		return nil, nil
	}
	j := &journals{folder: filepath.Join(below, whoPlatform)}
	if err := os.MkdirAll(j.folder, 0o700); err != nil {
		return nil, err
	}
	var err error
	j.ofOwn, err = j.open("")
	return j, err
}

// open begins the journal of a worker with this name, or of none. It returns nil if nothing is to be written.
func (j *journals) open(worker string) (*journalfile.Writer, error) {
	if j == nil {
		return nil, nil
	}
	return journalfile.Open(journalfile.Options{
		Path: j.folder, Side: whoPlatform, Most: 64 << 20, Started: journal.StartMembers(cli.Version(), worker),
		Failed: func(err error) { j.fail("lines of the journal are lost: " + err.Error()) },
	})
}

func (j *journals) fail(what string) { j.hold(func() { j.failed = append(j.failed, what) }) }

// close ends the journal of osb-storm's own requests, and returns what has failed.
func (j *journals) close() []string {
	if j == nil {
		return nil
	}
	j.ofOwn.Close()
	j.mutex.Lock()
	defer j.mutex.Unlock()
	return j.failed
}

// own writes down the requests that osb-storm sends itself. They have no attempt, because no record has them.
func (j *journals) own(next http.RoundTripper) http.RoundTripper {
	if j == nil {
		return next
	}
	return ownRequests{next, j.ofOwn}
}

type ownRequests struct {
	next http.RoundTripper
	to   *journalfile.Writer
}

// An ownLine is the line of a request, or of the answer to it.
type ownLine struct {
	Request  string `json:"request"`
	Instance string `json:"instance"`
	Binding  string `json:"binding,omitempty"`
	Broker   string `json:"broker"`
	Kind     string `json:"kind"`
	Accepts  bool   `json:"accepts,omitempty"`
	Status   int    `json:"status,omitempty"`
	Lost     string `json:"lost,omitempty"`
}

// RoundTrip sends a request.
func (o ownRequests) RoundTrip(request *http.Request) (*http.Response, error) {
	line, is := ownLineOf(request)
	if !is {
		return o.next.RoundTrip(request)
	}
	var id osb.ID
	if _, err := rand.Read(id[:]); err != nil {
		return nil, err
	}
	line.Request = id.String()
	request = request.Clone(request.Context())
	request.Header.Set(osb.RequestIdentityHeader, line.Request)
	request.Header.Set(journalfile.Header, strconv.FormatInt(o.to.Write("sent", line), 10))
	answer, err := o.next.RoundTrip(request)
	line.Accepts = false
	if err != nil {
		line.Lost = err.Error()
	} else {
		line.Status = answer.StatusCode
		o.to.Receive(answer.Header.Get(journalfile.Header))
	}
	o.to.Write("answered", line)
	return answer, err
}

// ownLineOf returns the line of a request, if it is about an instance or a binding. Their ids are GUIDs.
func ownLineOf(request *http.Request) (line ownLine, is bool) {
	_, path, is := strings.Cut(request.URL.Path, "/v2/service_instances/")
	if !is {
		return line, false
	}
	ids := strings.TrimSuffix(path, "/last_operation")
	line.Instance, line.Binding, _ = strings.Cut(ids, "/service_bindings/")
	line.Broker, line.Accepts = brokerName, request.URL.Query().Get("accepts_incomplete") == "true"
	switch {
	case request.Method == http.MethodPut:
		line.Kind = osb.KindProvision.String()
	case request.Method == http.MethodPatch:
		line.Kind = "update"
	case request.Method == http.MethodDelete:
		line.Kind = osb.KindDeprovision.String()
	case ids != path:
		line.Kind = osb.KindPoll.String()
	default:
		line.Kind = "fetch"
	}
	return line, true
}
