// osb-storm tests a broker or a platform under the Open Service Broker API 2.17 (docs/storm.md).
package main

import (
	"fmt"
	"strings"

	"github.com/spf13/cobra"
	"github.com/spf13/pflag"

	"pippinterm/internal/cli"
)

func main() {
	verdict := &cli.Verdict{}
	cli.Main(rootCommand(verdict), verdict)
}

// The exit statuses besides those of the package cli.
const (
	statusDeviates    = 1  // what is tested deviates from the standard or loses something, or not everything was tried
	statusLeft        = 3  // something couldn't be deleted
	statusUnreachable = 69 // the broker doesn't answer (EX_UNAVAILABLE in sysexits.h)
)

func rootCommand(v *cli.Verdict) *cobra.Command {
	root := &cobra.Command{
		Use:     "osb-storm",
		Short:   "Test a broker or a platform under the Open Service Broker API 2.17",
		Version: cli.Version(),
		Long: `Test a broker or a platform under the Open Service Broker API 2.17.

At a broker, it creates instances and bindings of its own, and deletes them again. For a platform, it is a broker.
Of osb-broker and osb-platform, it tests both together.

    ./osb-storm conform --url http://127.0.0.1:8080 --user platform --password-file FILE
    ./osb-storm broker --url http://127.0.0.1:8080 --user platform --password-file FILE
    ./osb-storm platform --listen 127.0.0.1:8080 --user platform --password-file FILE
    ./osb-storm both

docs/storm.md says how to run it against a broker or a platform of your own.`,
	}
	root.AddCommand(conformCommand(v), brokerCommand(v), platformCommand(v), bothCommand(v))
	root.CompletionOptions.DisableDefaultCmd = true
	return root
}

func choiceOf(to *string, value string, values ...string) pflag.Value {
	*to = value
	return cli.Text(to, "word", func(text string) (string, error) {
		for _, value := range values {
			if text == value {
				return text, nil
			}
		}
		return "", fmt.Errorf("choose one of: %s", strings.Join(values, ", "))
	})
}
