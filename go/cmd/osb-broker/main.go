// osb-broker is a broker under the Open Service Broker API 2.17 (docs/broker-guide.md).
package main

import (
	"bytes"
	_ "embed"
	"fmt"
	"os"
	"regexp"

	"github.com/spf13/cobra"

	"pippinterm/broker"
	"pippinterm/internal/cli"
	"pippinterm/osb"
)

func main() {
	verdict := &cli.Verdict{}
	cli.Main(rootCommand(verdict), verdict)
}

func rootCommand(v *cli.Verdict) *cobra.Command {
	root := &cobra.Command{
		Use:     "osb-broker",
		Short:   "A broker under the Open Service Broker API 2.17",
		Version: cli.Version(),
		Long: `A broker under the Open Service Broker API 2.17, for instances and their bindings.

Only a password is needed: 'osb-broker serve' then sells folders below the state folder, and keeps its
holdings there, in SQLite.

    OSB_BROKER_PASSWORD=secret ./osb-broker serve

docs/broker-guide.md says how to run it, and how to sell something of your own. 'osb-broker try' tests a backend
of your own without a broker.`,
	}
	root.AddCommand(serveCommand(), tryCommand(v), passwordCommand(), keyCommand(), rekeyCommand())
	root.CompletionOptions.DisableDefaultCmd = true
	return root
}

// The catalogue that is served if no other is named: one service with a plan of each kind.
//
//go:embed catalogue.json
var standard []byte

// catalogueOf is the catalogue of a file, or the standard one, in which the service has the name of what is sold.
func catalogueOf(file, sells string, can broker.Abilities) (*broker.Catalogue, error) {
	document, name := bytes.ReplaceAll(standard, []byte("SOLD"), []byte(sells)), "the standard catalogue"
	if !can.Bindings {
		document = bytes.ReplaceAll(document, []byte(`"bindable": true`), []byte(`"bindable": false`))
		document = bytes.ReplaceAll(document, []byte(`"bindings_retrievable": true`), []byte(`"bindings_retrievable": false`))
	}
	if !can.Updates {
		document = bytes.ReplaceAll(document, []byte(`"plan_updateable": true`), []byte(`"plan_updateable": false`))
	}
	if file != "" {
		var err error
		if document, err = os.ReadFile(file); err != nil {
			return nil, cli.Unusable(fmt.Errorf("the catalogue can't be read: %w", err))
		}
		name = file
	}
	catalogue, err := broker.NewCatalogue(document, can)
	if err != nil {
		return nil, cli.Unusable(fmt.Errorf("%s can't be the catalogue: %w", name, err))
	}
	return catalogue, nil
}

var guid = regexp.MustCompile(`"[0-9a-fA-F]{8}(-[0-9a-fA-F]{4}){3}-[0-9a-fA-F]{12}"`)

// inUpperCase are the GUIDs of a document that have a digit in upper case: each is another id than the same GUID in
// lower case.
func inUpperCase(document []byte) []string {
	var found []string
	for _, quoted := range guid.FindAll(document, -1) {
		text := string(bytes.Trim(quoted, `"`))
		id, err := osb.ParseID(text)
		if err == nil && id.String() != text {
			found = append(found, text)
		}
	}
	return found
}
