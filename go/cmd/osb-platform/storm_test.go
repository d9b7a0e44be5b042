//go:build storm

package main

import (
	"fmt"
	"reflect"
	"testing"
	"time"

	"pippinterm/internal/diff"
	"pippinterm/platform"
)

// A storm shortens the leases, and takes a part out of the client.
func TestForStorm(t *testing.T) {
	given := platform.Options{Worker: "one"}
	for _, test := range []struct {
		margin, without, fails string
		options                platform.Options
		isOther                bool // whether another client is returned
	}{
		{options: given},
		{margin: "1500ms", options: platform.Options{Worker: "one", Margin: 1500 * time.Millisecond}},
		{without: "attempts", options: given, isOther: true},
		{without: "platform", options: given},
		{margin: "soon", fails: "OSB_MARGIN"},
		{without: "tombstones", fails: `without "tombstones"`},
	} {
		t.Run(fmt.Sprintf("margin %q, without %q", test.margin, test.without), func(t *testing.T) {
			t.Setenv("OSB_MARGIN", test.margin)
			t.Setenv("OSB_WITHOUT", test.without)
			with, options, err := forStorm(nil, nil, given)
			switch {
			case test.fails != "":
				diff.ErrorContains(t, err, test.fails, "%+v", test)
			case err != nil || !reflect.DeepEqual(options, test.options) || (with != nil) != test.isOther:
				t.Errorf("%+v: got %v, %v, want another: %t; %s",
					test, with, err, test.isOther, diff.Of(options, test.options))
			}
		})
	}
}
