package broker_test

import (
	"errors"
	"fmt"
	"strings"
	"testing"

	"pippinterm/broker"
	"pippinterm/internal/diff"
)

// soldWith is a catalogue with these members of the service and of the plan besides those that it must have.
func soldWith(service, plan string) []byte {
	return []byte(fmt.Sprintf(`{"services": [{"id": "s", "name": "shelf", "description": "d", "bindable": true, %s
		"plans": [{"id": "p", "name": "small", "description": "d" %s}]}]}`, service, plan))
}

// The rules are those of the sections Service Offering Object and Service Plan Object of the standard, and that nothing
// is promised that isn't served.
func TestMembersOfACatalogue(t *testing.T) {
	for _, test := range []struct {
		service, plan string
		says          string // what the error says besides the names, or empty if the catalogue is served
	}{
		{``, ``, ``},
		{`"tags": ["a", "b"], "requires": [], "metadata": {"x": 1}, "dashboard_client": {"id": "i"},`, ``, ``},
		{`"allow_context_updates": false, "binding_rotatable": false, "x-own": 7,`, `, "x-own": null`, ``},
		{``, `, "free": false, "metadata": {}, "schemas": {}, "maximum_polling_duration": 60`, ``},
		{``, `, "maintenance_info": {"version": "1.2.3", "description": "d"}, "binding_rotatable": false`, ``},

		{`"tags": "x",`, ``, `tags isn't an array of strings`},
		{`"tags": [1],`, ``, `tags isn't an array of strings`},
		{`"tags": [null],`, ``, `tags isn't an array of strings`},
		{`"requires": ["route_forwarding"],`, ``, `requires has "route_forwarding": no Bind`},
		{`"requires": ["junk"],`, ``, `requires has "junk": no Bind`},
		{`"requires": {},`, ``, `requires isn't an array of strings`},
		{`"metadata": [],`, ``, `metadata isn't an object`},
		{`"dashboard_client": null,`, ``, `dashboard_client isn't an object`},
		{`"allow_context_updates": true,`, ``, `allow_context_updates is true, and updates of the context aren't served`},
		{`"allow_context_updates": "false",`, ``, `allow_context_updates isn't true or false`},
		{`"binding_rotatable": true,`, ``, `binding_rotatable is true, and rotation isn't served`},
		{``, `, "free": "x"`, `free isn't true or false`},
		{``, `, "metadata": "x"`, `metadata isn't an object`},
		{``, `, "schemas": []`, `schemas isn't an object`},
		{``, `, "maximum_polling_duration": "x"`, `maximum_polling_duration isn't a whole number of seconds above 0`},
		{``, `, "maximum_polling_duration": -5`, `maximum_polling_duration isn't a whole number of seconds above 0`},
		{``, `, "maximum_polling_duration": 0`, `maximum_polling_duration isn't a whole number of seconds above 0`},
		{``, `, "maximum_polling_duration": 1.5`, `maximum_polling_duration isn't a whole number of seconds above 0`},
		{``, `, "maintenance_info": {}`, `maintenance_info isn't an object with a version`},
		{``, `, "binding_rotatable": true`, `binding_rotatable is true, and rotation isn't served`},
	} {
		t.Run(test.service+test.plan, func(t *testing.T) {
			_, err := broker.NewCatalogue(soldWith(test.service, test.plan), broker.Abilities{Bindings: true})
			text := test.service + test.plan
			switch {
			case test.says == "":
				diff.NoError(t, err, "%s", text)
			case !errors.Is(err, broker.ErrCatalogueMember) || !strings.Contains(err.Error(), test.says):
				t.Errorf("%s: got the error %v, want ErrCatalogueMember and its names", text, err)
			case !strings.Contains(err.Error(), `service "shelf"`) || test.plan != "" && !strings.Contains(err.Error(), `plan "small"`):
				t.Errorf("%s: got %v, want an error that names the service and the plan", text, err)
			}
		})
	}
}
