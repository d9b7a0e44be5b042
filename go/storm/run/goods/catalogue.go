// Package goods is the catalogue of the brokers that osb-storm starts itself.
package goods

import _ "embed"

// The ids in the catalogue.
const (
	Service        = "00000000-0000-0000-0000-0000000005a0"
	AtOnce         = "00000000-0000-0000-0000-0000000005b1" // a plan that is created before the answer
	Later          = "00000000-0000-0000-0000-0000000005b2" // a plan that is created after the answer
	LaterWithBinds = "00000000-0000-0000-0000-0000000005b3" // the same, and so are its bindings
	OnlyBindsLater = "00000000-0000-0000-0000-0000000005b4" // only its bindings are created after the answer
)

//go:embed catalogue.json
var document []byte

// Document returns the document of the catalogue.
func Document() []byte { return append([]byte{}, document...) }
