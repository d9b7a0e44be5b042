package platform

import (
	"encoding/json"
	"fmt"
	"net/http"
	"regexp"
	"sort"
	"strings"

	"pippinterm/storm/fault"
	"pippinterm/storm/report"
	"pippinterm/storm/run"
)

// A belief is what a platform can know of an instance or a binding by the answers that it got (sections Provisioning,
// Deprovisioning, Polling Last Operation and Orphan Mitigation).
type belief int

const (
	nothing   belief = iota // it was never asked for, or its deletion has succeeded
	creating                // a creation was answered with 202
	ready                   // an answer says that it exists
	doubtful                // after the answer to the creation, the standard asks for a deletion
	rejected                // the creation was answered with 4xx: the standard asks for no deletion
	unclear                 // the standard asks for no deletion, and nobody knows whether it exists
	deleting                // a deletion was answered with 202
	undeleted               // a deletion was answered with anything but a success
)

// A view is a belief, and the request that it is of.
type view struct {
	belief  belief
	because fault.Exchange // the request whose answer has led to the belief
	last    fault.Exchange // the last request
	tried   bool           // doubtful: a deletion was sent, and was answered with anything but a success
}

// viewsOf returns what the platform can know of each key. The exchanges are in the order in which they began.
func viewsOf(exchanges []fault.Exchange) map[report.Key]view {
	views := map[report.Key]view{}
	for _, x := range exchanges {
		if x.Instance == "" {
			continue
		}
		key := report.Key{Instance: x.Instance, Binding: x.Binding}
		views[key] = views[key].after(x)
	}
	return views
}

func (v view) after(x fault.Exchange) view {
	next, tried := v.belief, v.tried
	switch kind := kindOf(x); kind {
	case provision, bind:
		next = afterCreation(v.belief, x.Receipt)
	case deprovision, unbind:
		next = afterDeletion(v.belief, x.Receipt)
		tried = next == doubtful
	case poll, pollBinding:
		next = v.afterPoll(x.Receipt)
	case fetch, fetchBinding:
		if x.Receipt.Status == http.StatusOK && objectOf(x.Receipt) != nil && isUncertain(v.belief) {
			next = ready
		}
	}
	v.last = x
	if next != v.belief {
		v.because = x
	}
	v.tried = tried && next == doubtful && v.belief == doubtful
	v.belief = next
	return v
}

// afterCreation returns what the platform can know after the answer to a Provision or a Bind.
func afterCreation(before belief, receipt fault.Receipt) belief {
	next := beliefAfterCreation(receipt)
	if isRepeat := before == creating || before == ready || before == doubtful; isRepeat && next == rejected {
		return before // such as 409 or 422: what the first one has created may exist
	}
	return next
}

// beliefAfterCreation is the table of the section Orphan Mitigation.
func beliefAfterCreation(receipt fault.Receipt) belief {
	isReadable := objectOf(receipt) != nil
	switch {
	case receipt.Status == http.StatusOK && !isReadable:
		return unclear
	case receipt.Status == http.StatusOK, receipt.Status == http.StatusCreated && isReadable:
		return ready
	case receipt.Status == http.StatusAccepted && isReadable:
		return creating
	case receipt.Status == http.StatusRequestTimeout:
		return unclear
	case receipt.Status >= 400 && receipt.Status < 500:
		return rejected
	}
	return doubtful // 201 or 202 that can't be read, any other 2xx, 5xx, and no answer
}

// afterDeletion returns what the platform can know after the answer to a Deprovision or an Unbind.
func afterDeletion(before belief, receipt fault.Receipt) belief {
	switch {
	case receipt.Status == http.StatusOK || receipt.Status == http.StatusGone:
		return nothing
	case receipt.Status == http.StatusAccepted && objectOf(receipt) != nil:
		return deleting
	case before == creating || before == ready || before == deleting:
		return undeleted
	}
	return before
}

// afterPoll returns what the platform can know after the answer to a Poll. After a deletion was sent, a 410 says that
// it has succeeded, whatever the answer to the deletion was.
func (v view) afterPoll(receipt fault.Receipt) belief {
	state, _ := objectOf(receipt)["state"].(string)
	hasSucceeded := receipt.Status == http.StatusOK && state == "succeeded"
	hasFailed := receipt.Status == http.StatusOK && state == "failed"
	isDeleted := v.belief == deleting || v.belief == undeleted || v.tried
	switch {
	case isDeleted && receipt.Status == http.StatusGone, v.belief == deleting && hasSucceeded:
		return nothing
	case v.belief == deleting && hasFailed:
		return undeleted
	case v.belief == creating && hasFailed:
		return unclear
	case hasSucceeded && (v.belief == creating || isUncertain(v.belief)):
		return ready
	}
	return v.belief
}

func isUncertain(it belief) bool { return it == doubtful || it == unclear || it == rejected }

// objectOf returns the object that an answer is, or nil if the platform can't read one.
func objectOf(receipt fault.Receipt) (object map[string]any) {
	if !receipt.IsWhole || json.Unmarshal(receipt.Body, &object) != nil {
		return nil
	}
	return object
}

// A kind is what a request asks for.
type kind int

const (
	other kind = iota
	catalogue
	provision
	deprovision
	update
	fetch
	poll
	bind
	unbind
	fetchBinding
	pollBinding
)

var (
	ofInstance = regexp.MustCompile(`^/v2/service_instances/[^/]+(/service_bindings/[^/]+)?(/last_operation)?$`)
	instances  = map[string]kind{
		"PUT": provision, "DELETE": deprovision, "PATCH": update, "GET": fetch, "GET/last_operation": poll,
	}
	bindings = map[string]kind{"PUT": bind, "DELETE": unbind, "GET": fetchBinding, "GET/last_operation": pollBinding}
)

// kindOf returns what a request asks for, by its method and its path.
func kindOf(x fault.Exchange) kind {
	path, _, _ := strings.Cut(x.Target, "?")
	found := ofInstance.FindStringSubmatch(path)
	switch {
	case path == "/v2/catalog" && x.Method == http.MethodGet:
		return catalogue
	case found == nil:
		return other
	case found[1] != "":
		return bindings[x.Method+found[2]]
	}
	return instances[x.Method+found[2]]
}

func (k kind) is(kinds ...kind) bool {
	for _, kind := range kinds {
		if kind == k {
			return true
		}
	}
	return false
}

// compare finds what exists and the platform doesn't have, and the other way round. What the platform has is known from
// its list. Without one, it follows from the answers that the platform got.
func compare(found *result, keys []report.Key, existing map[report.Key]bool, listed list) {
	add := found.Differences.Add
	for _, key := range keys {
		v, exists := found.views[key], existing[key]
		has, isListed := listed.of(key)
		switch {
		case exists && !has && v.isGoing() && v.last.Begun > found.calm:
			add(key, run.Stuck, "the platform still works on it. "+v.lastRequest())
		case isListed && exists && !has:
			add(key, run.Lost, "it exists, and the platform doesn't have it. "+v.reason())
		case isListed && has && !exists:
			add(key, run.False, "the platform has it, and it doesn't exist. "+v.reason())
		case isListed && has && isUncertain(v.belief):
			add(key, run.False, "the platform has it, and no answer says that it exists. "+v.reason())
		case isListed || !exists:
		case v.belief == ready:
			add(key, run.Present, v.lastRequest())
		default:
			add(key, run.Lost, "it exists. "+v.reason())
		}
	}
	sort.SliceStable(found.Differences, func(one, other int) bool {
		return found.Differences[one].Kind < found.Differences[other].Kind
	})
}

// isGoing reports whether the platform waits for the end of an operation, or tries to delete.
func (v view) isGoing() bool {
	return v.belief == creating || v.belief == deleting || v.belief == undeleted || v.tried
}

// reason says what the platform did last, and what the standard says about that.
func (v view) reason() string {
	got := answerText(v.because)
	switch v.belief {
	case creating, deleting:
		return got + ", and the platform has stopped polling"
	case doubtful:
		if v.tried {
			return fmt.Sprintf("%s, and so the standard asks for a deletion. The last one, %s, got %s, and wasn't repeated",
				got, v.last.Number, v.last.Receipt.Words)
		}
		return got + ", and so the standard asks for a deletion. None was sent"
	case rejected, unclear:
		return got + ". The standard asks for no deletion then"
	case undeleted:
		return answerText(v.last) + ", and the platform hasn't repeated it"
	}
	return v.lastRequest()
}

func (v view) lastRequest() string {
	return "The platform's last request: " + answerText(v.last)
}

// answerText says what the platform got in answer to a request.
func answerText(x fault.Exchange) string {
	unread := ""
	if x.Receipt.Status >= 200 && x.Receipt.Status < 300 && objectOf(x.Receipt) == nil {
		unread = " that can't be read"
	}
	return fmt.Sprintf("%s (%s) got %s%s", x.Number, x.Method, x.Receipt.Words, unread)
}
