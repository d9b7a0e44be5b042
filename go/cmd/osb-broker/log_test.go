package main

import (
	"bytes"
	"errors"
	"reflect"
	"regexp"
	"strings"
	"testing"
	"time"

	"pippinterm/broker"
	"pippinterm/internal/diff"
	"pippinterm/internal/logs"
	"pippinterm/osb"
)

var aTime = regexp.MustCompile(`"time":"\d{4}-\d\d-\d\dT\d\d:\d\d:\d\d\.\d{3}Z"`)

// withoutTimes returns the lines with T in the place of each time that has the form of the log.
func withoutTimes(lines string) string { return aTime.ReplaceAllString(lines, `"time":"T"`) }

const (
	loggedInstance = "00000000-0000-0000-0000-000000000001"
	loggedBinding  = "00000000-0000-0000-0000-000000000002"
)

func TestObserverLogsARequest(t *testing.T) {
	instance, binding := osb.MustParseID(loggedInstance), osb.MustParseID(loggedBinding)
	whole := broker.Exchange{
		RequestID: "an-id", Key: osb.BindingKey(instance, binding), IsNamed: true, Route: "bind", Method: "PUT",
		Target: "/v2/service_instances/1/service_bindings/2", Status: 201, Reason: "why",
		Duration: 12345 * time.Microsecond, User: "platform", Address: "192.0.2.1", Traceparent: "00-1-2-01",
		VcapRequest: "3", Identity: "cloudfoundry",
	}
	for name, test := range map[string]struct {
		exchange broker.Exchange
		want     string
	}{
		"all members": {whole, `{"time":"T","level":"info","event":"request","request":"an-id",` +
			`"instance":"` + loggedInstance + `","binding":"` + loggedBinding + `",` +
			`"route":"bind","method":"PUT","target":"/v2/service_instances/1/service_bindings/2","status":201,` +
			`"reason":"why","milliseconds":12.3,"user":"platform","address":"192.0.2.1","traceparent":"00-1-2-01",` +
			`"vcap_request_id":"3","originating_identity":"cloudfoundry"}`},
		"an instance": {broker.Exchange{Key: osb.InstanceKey(instance), IsNamed: true, Route: "poll", Status: 200},
			`{"time":"T","level":"info","event":"request","instance":"` + loggedInstance + `",` +
				`"route":"poll","status":200,"milliseconds":0}`},
		"nothing is named": {broker.Exchange{Route: "other", Status: 408, Address: "::1"},
			`{"time":"T","level":"info","event":"request","route":"other","status":408,"milliseconds":0,` +
				`"address":"::1"}`},
	} {
		t.Run(name, func(t *testing.T) {
			var got bytes.Buffer
			logObserver{logs.New(&got)}.OnExchange(test.exchange)
			diff.Equal(t, withoutTimes(got.String()), test.want+"\n", "%s", test.want)
		})
	}
}

func TestEachFieldOfAnExchangeIsLogged(t *testing.T) {
	var got bytes.Buffer
	var exchange broker.Exchange
	fields := reflect.ValueOf(&exchange).Elem()
	var texts []string
	for number := 0; number < fields.NumField(); number++ {
		if field := fields.Field(number); field.Kind() == reflect.String {
			texts = append(texts, "text-"+fields.Type().Field(number).Name)
			field.SetString(texts[len(texts)-1])
		}
	}
	logObserver{logs.New(&got)}.OnExchange(exchange)
	for _, text := range texts {
		diff.Contains(t, got.String(), `"`+text+`"`, "%s", text)
	}
}

func TestObserverLogsOtherEvents(t *testing.T) {
	var got bytes.Buffer
	observer := logObserver{logs.New(&got)}
	key := osb.InstanceKey(osb.MustParseID(loggedInstance))
	why := errors.New("why")
	observer.OnFailure(broker.Failure{Event: "store_failed", RequestID: "an-id", Key: key, IsNamed: true, Err: why})
	observer.OnFailure(broker.Failure{Event: "sweep_failed"})
	observer.OnFailure(broker.Failure{Event: "backend_rejected", Err: why, IsRejection: true})
	observer.OnCallFailure("look")
	observer.OnCommit(3)
	observer.OnEnd(key, true)
	observer.OnEnd(key, false)
	want := strings.ReplaceAll(`
{"time":"T","level":"error","event":"store_failed","request":"an-id","instance":"ONE","error":"why"}
{"time":"T","level":"error","event":"sweep_failed"}
{"time":"T","level":"info","event":"backend_rejected","error":"why"}
{"time":"T","level":"info","event":"operation_ended","instance":"ONE","succeeded":true}
{"time":"T","level":"info","event":"operation_ended","instance":"ONE","succeeded":false}
`, "ONE", loggedInstance)
	diff.Equal(t, "\n"+withoutTimes(got.String()), want, "")
}

type recorder struct{ events []any }

func (r *recorder) OnExchange(exchange broker.Exchange) { r.events = append(r.events, exchange) }
func (r *recorder) OnFailure(failure broker.Failure)    { r.events = append(r.events, failure) }
func (r *recorder) OnCallFailure(call string)           { r.events = append(r.events, call) }
func (r *recorder) OnCommit(changes int)                { r.events = append(r.events, changes) }
func (r *recorder) OnEnd(key broker.Key, ok bool)       { r.events = append(r.events, key, ok) }

func TestObserversHandOnEachEvent(t *testing.T) {
	var first, second recorder
	both := observers{&first, &second}
	exchange, failure := broker.Exchange{Status: 201}, broker.Failure{Event: "failed", Err: errors.New("why")}
	key := broker.Key{IsBinding: true}
	both.OnExchange(exchange)
	both.OnFailure(failure)
	both.OnCallFailure("look")
	both.OnCommit(3)
	both.OnEnd(key, true)
	want := []any{exchange, failure, "look", 3, key, true}
	for _, got := range [][]any{first.events, second.events} {
		diff.Check(t, got, want, "the events")
	}
}

// Why the store can't be used is in the log, under the event that the answer to /readyz names.
func TestNotReadyIsLogged(t *testing.T) {
	var got bytes.Buffer
	r := &server{observer: logObserver{logs.New(&got)}}
	r.notReady(errors.New("away"))
	want := `{"time":"T","level":"error","event":"not_ready","error":"away"}` + "\n"
	diff.Equal(t, withoutTimes(got.String()), want, "")
}
