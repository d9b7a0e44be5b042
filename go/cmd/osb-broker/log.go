package main

import (
	"time"

	"github.com/rs/zerolog"

	"pippinterm/broker"
	"pippinterm/internal/logs"
)

// A logObserver is a broker.Observer that logs these events (this project's choice). Empty members are left out.
//
//	request          info: a request and its answer, with request (the id of the request), instance, binding, route,
//	                 method, target, status, reason, milliseconds, user, address, traceparent, vcap_request_id
//	                 and originating_identity
//	operation_ended  info: an asynchronous operation has ended, or pending work that a dead worker had left, with
//	                 instance, binding and succeeded
//	Failure.Event    error: a failure, with request, instance, binding and error
type logObserver struct{ *logs.Logger }

func (o logObserver) OnExchange(exchange broker.Exchange) {
	event := o.Info("request")
	logs.Add(event, "request", exchange.RequestID)
	addKey(event, exchange.Key, exchange.IsNamed)
	logs.Add(event, "route", exchange.Route)
	logs.Add(event, "method", exchange.Method)
	logs.Add(event, "target", exchange.Target)
	event.Int("status", exchange.Status)
	logs.Add(event, "reason", exchange.Reason)
	event.Float64("milliseconds", logs.Milliseconds(exchange.Duration))
	logs.Add(event, "user", exchange.User)
	logs.Add(event, "address", exchange.Address)
	logs.Add(event, "traceparent", exchange.Traceparent)
	logs.Add(event, "vcap_request_id", exchange.VcapRequest)
	logs.Add(event, "originating_identity", exchange.Identity)
	event.Send()
}

// OnFailure logs a failure. That a backend has rejected a creation isn't an error.
func (o logObserver) OnFailure(failure broker.Failure) {
	level := o.Error
	if failure.IsRejection {
		level = o.Info
	}
	event := level(failure.Event)
	logs.Add(event, "request", failure.RequestID)
	addKey(event, failure.Key, failure.IsNamed)
	if failure.Err != nil {
		event.Str("error", failure.Err.Error())
	}
	event.Send()
}

// OnCallFailure logs nothing: what the call was for is logged once it has failed, and not again with each retry.
func (o logObserver) OnCallFailure(string) {}

func (o logObserver) OnCommit(int) {}

func (o logObserver) OnEnd(key broker.Key, ok bool) {
	event := o.Info("operation_ended")
	addKey(event, key, true)
	event.Bool("succeeded", ok)
	event.Send()
}

func addKey(event *zerolog.Event, key broker.Key, isNamed bool) {
	if !isNamed {
		return
	}
	event.Str("instance", key.Instance.String())
	if key.IsBinding {
		event.Str("binding", key.Binding.String())
	}
}

// observers are one broker.Observer, which hands each event to all of them, in this order.
type observers []broker.Observer

func (o observers) OnExchange(exchange broker.Exchange) {
	for _, observer := range o {
		observer.OnExchange(exchange)
	}
}

func (o observers) OnFailure(failure broker.Failure) {
	for _, observer := range o {
		observer.OnFailure(failure)
	}
}

func (o observers) OnCallFailure(call string) {
	for _, observer := range o {
		observer.OnCallFailure(call)
	}
}

func (o observers) OnCommit(changes int) {
	for _, observer := range o {
		observer.OnCommit(changes)
	}
}

func (o observers) OnEnd(key broker.Key, ok bool) {
	for _, observer := range o {
		observer.OnEnd(key, ok)
	}
}

// returns is an observer that logs ids that return, too (this project's choice):
//
//	id_returned  info: a creation was let in although its id has a tombstone, with request (the id of the request),
//	             instance, binding and ended_seconds_ago
type returns struct {
	broker.Observer
	log *logs.Logger
}

func (r returns) OnReturn(it broker.Return) {
	event := r.log.Info("id_returned").Str("request", it.RequestID).Str("instance", it.Key.Instance.String())
	if it.Key.IsBinding {
		event.Str("binding", it.Key.Binding.String())
	}
	event.Float64("ended_seconds_ago", it.EndedAgo.Truncate(time.Millisecond).Seconds()).Send()
}
