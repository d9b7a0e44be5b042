package cli

import (
	"crypto/rand"
	"encoding/base64"
	"errors"
	"fmt"
	"net"
	"net/netip"
	"os"
	"strconv"
	"strings"
	"time"

	"github.com/spf13/cobra"
	"github.com/spf13/pflag"
)

// The shortest and the longest time that a flag of Seconds takes.
const (
	shortest = time.Millisecond
	longest  = 24 * time.Hour
)

// Seconds returns the value of a flag that is a number of seconds, from 0.001 to 86400, with or without a fraction. It
// sets *to to standard immediately, and to the number when the flag is read. If the text is anything else, Set returns
// an error and leaves *to unchanged. (The formats of Seconds, Count, Address and Place are this project's choice.)
func Seconds(to *time.Duration, standard time.Duration) pflag.Value {
	*to = standard
	return Value(to, "seconds", SecondsText, func(text string) (time.Duration, error) {
		return ParseSeconds(text, shortest, longest)
	})
}

// ParseSeconds returns the time of a text that is a number of seconds from least to most, with or without a fraction.
func ParseSeconds(text string, least, most time.Duration) (time.Duration, error) {
	number, err := strconv.ParseFloat(text, 64)
	// a comparison with a number that isn't one is false
	if err != nil || !(number >= least.Seconds() && number <= most.Seconds()) {
		return 0, fmt.Errorf("want a number of seconds from %v to %v", least.Seconds(), most.Seconds())
	}
	return time.Duration(number * float64(time.Second)), nil
}

// SecondsText returns a time as the number of its seconds.
func SecondsText(of time.Duration) string { return strconv.FormatFloat(of.Seconds(), 'f', -1, 64) }

// Count returns the value of a flag that is a whole number from least to most, in decimal digits. It sets *to to
// standard immediately, and to the number when the flag is read. If the text is anything else, Set returns an error and
// leaves *to unchanged.
func Count(to *int, standard, least, most int) pflag.Value {
	*to = standard
	return Value(to, "number", strconv.Itoa, func(text string) (int, error) {
		number, err := strconv.Atoi(text)
		if err != nil || strings.HasPrefix(text, "+") || number < least || number > most {
			return 0, fmt.Errorf("want a number from %d to %d", least, most)
		}
		return number, nil
	})
}

// Address returns the value of a flag that is an address HOST:PORT at which a program listens. The host is a name, an
// IPv4 address, or an IPv6 address with or without brackets. The port is a number from 0 to 65535, and 0 is any free
// port. Address sets *to to standard immediately, and when the flag is read to the address in the form that package net
// takes, such as [::1]:0. If the text is anything else, Set returns an error and leaves *to unchanged.
func Address(to *string, standard string) pflag.Value {
	*to = standard
	return Text(to, "host:port", parseAddress)
}

// Networks returns the value of a flag that may be given several times: each time it is an IP address, or a network
// such as 10.1.0.0/16, which is added to *to. If the text is anything else, or the network of all addresses, Set
// returns an error and leaves *to unchanged.
func Networks(to *[]netip.Prefix) pflag.Value {
	show := func(all []netip.Prefix) string {
		return strings.Trim(strings.Join(strings.Fields(fmt.Sprint(all)), ","), "[]")
	}
	return Value(to, "network", show, func(text string) ([]netip.Prefix, error) {
		network, err := netip.ParsePrefix(text)
		if address, failed := netip.ParseAddr(text); failed == nil && address.Zone() == "" {
			network, err = netip.PrefixFrom(address, address.BitLen()), nil
		}
		switch {
		case err != nil || network.Addr().Is4In6():
			return nil, fmt.Errorf("want an address or a network, such as 10.1.2.3 or 10.1.0.0/16")
		case network.Bits() == 0:
			return nil, fmt.Errorf("want a smaller network: with %s, each client could name any address as its own", text)
		}
		return append(*to, network.Masked()), nil
	})
}

// Place returns the value of a flag that is the path of a file or a folder, or the URL of a PostgreSQL server. It sets
// *to to standard immediately, and to the text when the flag is read. Set returns the error of CheckPlace, and leaves
// *to unchanged then.
func Place(to *string, standard string) pflag.Value {
	*to = standard
	return Text(to, "place", func(text string) (string, error) { return text, CheckPlace(text) })
}

// CheckPlace returns an error if a text is the URL of anything but a PostgreSQL server: a scheme that is misspelt would
// otherwise be taken for the name of a folder.
func CheckPlace(text string) error {
	scheme, _, isURL := strings.Cut(text, "://")
	if isURL && isScheme(scheme) && scheme != "postgresql" && scheme != "postgres" {
		return fmt.Errorf("want a path or postgresql://.., and not a URL that begins with %s://", scheme)
	}
	return nil
}

// isScheme reports whether a text has the form of a scheme (RFC 3986, section 3.1).
func isScheme(text string) bool {
	for at, character := range text {
		isLetter := character >= 'a' && character <= 'z' || character >= 'A' && character <= 'Z'
		if !isLetter && (at == 0 || !strings.ContainsRune("0123456789+-.", character)) {
			return false
		}
	}
	return text != ""
}

// Value returns the value of a flag whose texts parse reads and show writes. Its word in the help is kind. If parse
// returns an error, Set returns the error and leaves *to unchanged.
func Value[T any](to *T, kind string, show func(T) string, parse func(text string) (T, error)) pflag.Value {
	return &value[T]{to, kind, show, parse}
}

// Text returns the value of a flag that is a text, as Value does.
func Text[T ~string](to *T, kind string, parse func(text string) (T, error)) pflag.Value {
	return Value(to, kind, func(it T) string { return string(it) }, parse)
}

type value[T any] struct {
	to    *T
	kind  string
	show  func(T) string
	parse func(text string) (T, error)
}

func (v *value[T]) String() string { return v.show(*v.to) }

func (v *value[T]) Type() string { return v.kind }

func (v *value[T]) Set(text string) error {
	read, err := v.parse(text)
	if err == nil {
		*v.to = read
	}
	return err
}

func parseAddress(text string) (string, error) {
	colon := strings.LastIndexByte(text, ':')
	if colon < 0 {
		return "", fmt.Errorf("want HOST:PORT")
	}
	host, port := text[:colon], text[colon+1:]
	if strings.HasPrefix(host, "[") && strings.HasSuffix(host, "]") {
		host = host[1 : len(host)-1]
	}
	if host == "" || strings.ContainsAny(host, "/@[] ") {
		return "", fmt.Errorf("want HOST:PORT, such as 127.0.0.1:8080 or [::1]:8080")
	}
	if !isPort(port) {
		return "", fmt.Errorf("want HOST:PORT with a port from 0 to 65535")
	}
	return net.JoinHostPort(host, port), nil
}

func isPort(text string) bool {
	if strings.Trim(text, "0123456789") != "" {
		return false
	}
	_, err := strconv.ParseUint(text, 10, 16)
	return err == nil
}

// JournalFlags adds the options of a journal (docs/journal.md): where it is, and after how many MiB it goes on in
// another file.
func JournalFlags(flags *pflag.FlagSet, path *string, size *int) {
	flags.StringVar(path, "journal", "",
		"write a journal of all changes, requests and answers, which osb-audit reads: to a `file`, or to new files of a "+
			"folder (docs/journal.md)")
	flags.Var(Count(size, 64, 1, 1<<20), "journal-size", "the MiB after which the journal goes on in another file")
}

// KeyCommand returns the command `key` of a program. It prints a new random key of 43 characters (256 bits), or writes
// it to the new file that --to names.
func KeyCommand(short, long, example string) *cobra.Command {
	name := ""
	made := &cobra.Command{
		Use: "key", Short: short, Long: long, Example: example,
		RunE: func(c *cobra.Command, _ []string) error {
			var random [32]byte
			if _, err := rand.Read(random[:]); err != nil {
				return fmt.Errorf("no random bytes: %w", err)
			}
			key := base64.RawURLEncoding.EncodeToString(random[:]) + "\n"
			if name != "" {
				return WriteSecret(name, []byte(key))
			}
			_, err := fmt.Fprint(c.OutOrStdout(), key)
			return err
		},
	}
	made.Flags().StringVar(&name, "to", "", "a new `file` to write it to, that only its owner can read (mode 0600)")
	return made
}

// WriteSecret writes a secret to a new file that only its owner can read (mode 0600), and has it on disk.
//
// Errors, after which there is no new file: there is something of this name already, which stays as it is, or the file
// can't be created (both marked by Unusable); it can't be written.
func WriteSecret(name string, secret []byte) (err error) {
	file, err := os.OpenFile(name, os.O_WRONLY|os.O_CREATE|os.O_EXCL, 0o600)
	switch {
	case errors.Is(err, os.ErrExist):
		return Unusable(fmt.Errorf("%s exists already: name a new file", name))
	case err != nil:
		return Unusable(err)
	}
	defer func() {
		if closed := file.Close(); err == nil {
			err = closed
		}
		if err != nil {
			_ = os.Remove(name)
		}
	}()
	if _, err := file.Write(secret); err != nil {
		return err
	}
	return file.Sync()
}
