// Package texts remembers which texts of holdings a store has read or written lately, so that the library seldom has to
// read or write one again.
package texts

import (
	"sync"

	"pippinterm/osb"
)

// A Memory has the texts of holdings that were read or written lately, with what they mean. Those of instances at rest
// name none, so few are there. The others are read again soon, or never. The zero Memory knows none. Any number of
// goroutines use it.
type Memory struct {
	turn                sync.Mutex
	instances, bindings known
}

type known struct {
	meanings map[string]osb.Holding
	written  map[osb.Holding]string
}

const fewTexts = 1024

// Holding returns what the text of an instance's or of a binding's holding means.
//
// Errors: those of osb.Holding.UnmarshalJSON or of osb.BindingHoldingFromText.
func (m *Memory) Holding(isBinding bool, text string) (holding osb.Holding, err error) {
	if holding, isKnown := m.meaning(isBinding, text); isKnown {
		return holding, nil
	}
	if isBinding {
		holding, err = osb.BindingHoldingFromText([]byte(text))
	} else {
		err = holding.UnmarshalJSON([]byte(text))
	}
	if err == nil {
		m.keep(isBinding, text, holding)
	}
	return holding, err
}

// Text returns the text of an instance's or of a binding's holding.
//
// Errors: those of osb.Holding.MarshalJSON or of osb.Holding.BindingText.
func (m *Memory) Text(isBinding bool, holding osb.Holding) (string, error) {
	if text, isKnown := m.text(isBinding, holding); isKnown {
		return text, nil
	}
	write := holding.MarshalJSON
	if isBinding {
		write = holding.BindingText
	}
	written, err := write()
	text := string(written)
	if err == nil {
		m.keep(isBinding, text, holding)
	}
	return text, err
}

func (m *Memory) of(isBinding bool) *known {
	if isBinding {
		return &m.bindings
	}
	return &m.instances
}

func (m *Memory) meaning(isBinding bool, text string) (osb.Holding, bool) {
	m.turn.Lock()
	defer m.turn.Unlock()
	holding, isKnown := m.of(isBinding).meanings[text]
	return holding, isKnown
}

func (m *Memory) text(isBinding bool, holding osb.Holding) (string, bool) {
	m.turn.Lock()
	defer m.turn.Unlock()
	text, isKnown := m.of(isBinding).written[holding]
	return text, isKnown
}

func (m *Memory) keep(isBinding bool, text string, holding osb.Holding) {
	m.turn.Lock()
	defer m.turn.Unlock()
	it := m.of(isBinding)
	if it.meanings == nil || len(it.meanings) >= fewTexts {
		it.meanings, it.written = make(map[string]osb.Holding, fewTexts), map[osb.Holding]string{}
	}
	it.meanings[text] = holding
	if _, isPending := holding.Work(); !isPending {
		it.written[holding] = text
	}
}
