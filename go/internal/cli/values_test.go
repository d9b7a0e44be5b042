package cli

import (
	"bytes"
	"context"
	"net/netip"
	"os"
	"os/signal"
	"path/filepath"
	"regexp"
	"strings"
	"syscall"
	"testing"
	"time"

	"github.com/spf13/cobra"
	"github.com/spf13/pflag"

	"pippinterm/internal/diff"
)

func TestSeconds(t *testing.T) {
	for text, want := range map[string]time.Duration{
		"0.001": time.Millisecond, "0.5": 500 * time.Millisecond, "30": 30 * time.Second, "86400": 24 * time.Hour,
		"0": 0, "0.0009": 0, "-1": 0, "86400.1": 0, "nan": 0, "inf": 0, "": 0, "1s": 0, "x": 0,
	} {
		t.Run(text, func(t *testing.T) {
			var got time.Duration
			value := Seconds(&got, 7*time.Second)
			err := value.Set(text)
			if (err == nil) != (want > 0) || err != nil && err.Error() != "want a number of seconds from 0.001 to 86400" {
				t.Errorf("got the error %v, want one for wrong values alone, with the bounds", err)
			}
			if want == 0 {
				want = 7 * time.Second
			}
			diff.Equal(t, got, want, "")
		})
	}
	var got time.Duration
	diff.Equal(t, Seconds(&got, 1500*time.Millisecond).String(), "1.5", "the default")
}

func TestCount(t *testing.T) {
	for text, want := range map[string]int{
		"1": 1, "16": 16, "1024": 1024,
		"0": 0, "1025": 0, "-1": 0, "+1": 0, "1.0": 0, "": 0, "x": 0, "0x10": 0, "99999999999999999999": 0, " 1": 0,
	} {
		t.Run(text, func(t *testing.T) {
			var got int
			err := Count(&got, 4, 1, 1024).Set(text)
			if (err == nil) != (want > 0) || err != nil && err.Error() != "want a number from 1 to 1024" {
				t.Errorf("got the error %v, want one for wrong values alone, with the bounds", err)
			}
			if want == 0 {
				want = 4
			}
			diff.Equal(t, got, want, "")
		})
	}
}

func TestAddress(t *testing.T) {
	for text, want := range map[string]string{
		"127.0.0.1:8080": "127.0.0.1:8080", "localhost:0": "localhost:0", "[::1]:0": "[::1]:0", "::1:80": "[::1]:80",
		"[::]:65535": "[::]:65535",
		"8080":       "", ":8080": "", "x:": "", "x:70000": "", "x:-1": "", "x:+1": "", "x:http": "", "[]:1": "",
		"http://x:80": "", "u@x:80": "", "": "", "[::1]": "", "a b:1": "",
	} {
		t.Run(text, func(t *testing.T) {
			var got string
			if err := Address(&got, "127.0.0.1:1").Set(text); (err == nil) != (want != "") {
				t.Errorf("got the error %v, want one for wrong values alone", err)
			}
			if want == "" {
				want = "127.0.0.1:1"
			}
			diff.Equal(t, got, want, "")
		})
	}
}

func TestNetworks(t *testing.T) {
	var got []netip.Prefix
	value := Networks(&got)
	for text, isNetwork := range map[string]bool{
		"10.1.2.3": true, "10.1.2.3/16": true, "2001:db8::1": true, "2001:db8::/32": true, "0.0.0.0/1": true,
		"0.0.0.0/0": false, "::/0": false, "10.1.2": false, "10.1.0.0/33": false, "a.example": false, "": false,
		"fe80::1%eth0": false, "::ffff:10.0.0.0/104": false, "10.1.2.3:80": false, "10.0.0.1,10.0.0.2": false,
	} {
		t.Run(text, func(t *testing.T) {
			got = nil
			err := value.Set(text)
			diff.Equal(t, err == nil, isNetwork, "%v", err)
			diff.Equal(t, len(got) > 0, isNetwork, "%v", got)
			if err != nil && !strings.HasPrefix(err.Error(), "want a") {
				t.Errorf("got the error %v, want what is expected in it", err)
			}
		})
	}
	got = nil
	for _, network := range []string{"10.1.2.3/16", "192.0.2.1"} {
		check(t, value.Set(network))
	}
	diff.Equal(t, value.String(), "10.1.0.0/16,192.0.2.1/32", "")
}

func TestPlace(t *testing.T) {
	for text, isPlace := range map[string]bool{
		"": true, "/srv/store": true, "store.sqlite": true, "postgresql://u@h/d": true, "postgres://h/d": true,
		"command:./be": true, "command:./be://x": true, "./a://b": true, "://x": true, "a b://c": true,
		"postgresq://u@h/d": false, "mysql://h": false, "http://h": false, "FILE://x": false, "a+b-c.1://x": false,
	} {
		t.Run(text, func(t *testing.T) {
			got := "before"
			want := text
			if !isPlace {
				want = "before"
			}
			if err := Place(&got, got).Set(text); (err == nil) != isPlace || got != want {
				t.Errorf("got %q and the error %v, want an error for wrong values alone", got, err)
			}
		})
	}
}

func TestValuesInUse(t *testing.T) {
	var limit time.Duration
	var most int
	var at string
	flags := pflag.NewFlagSet("serve", pflag.ContinueOnError)
	flags.Var(Seconds(&limit, 30*time.Second), "request-seconds", "how long a request may take to arrive")
	flags.Var(Count(&most, 16, 1, 1024), "threads", "requests at once")
	flags.Var(Address(&at, "127.0.0.1:8080"), "listen", "where it listens")
	want := "      --listen host:port          where it listens (default 127.0.0.1:8080)\n" +
		"      --request-seconds seconds   how long a request may take to arrive (default 30)\n" +
		"      --threads number            requests at once (default 16)\n"
	diff.Equal(t, flags.FlagUsages(), want, "the help")
	check(t, flags.Parse([]string{"--listen=x:1", "--threads", "2"}))
	if limit != 30*time.Second || most != 2 || at != "x:1" {
		t.Errorf("got %v, %d and %q, want 30s, 2 and x:1", limit, most, at)
	}
}

// key runs `key` with these arguments, and returns its status and what it has printed.
func key(arguments ...string) (status int, out, failed string) {
	root := &cobra.Command{Use: "tool"}
	root.AddCommand(KeyCommand("a key", "a key", "tool key"))
	var printed, reported bytes.Buffer
	root.SetArgs(append([]string{"key"}, arguments...))
	root.SetOut(&printed)
	root.SetErr(&reported)
	return Run(context.Background(), root), printed.String(), reported.String()
}

var oneKey = regexp.MustCompile(`^[A-Za-z0-9_-]{43}\n$`)

func TestKeyIsPrinted(t *testing.T) {
	status, first, failed := key()
	_, second, _ := key()
	if status != StatusDone || failed != "" || !oneKey.MatchString(first) || first == second {
		t.Errorf("got the status %d, %q, %q and %q, want 0 and two keys", status, first, second, failed)
	}
}

// A key is written to a new file that only its owner reads, and to no other.
// A secret that the disk doesn't take isn't reported as written, and leaves no file.
func TestASecretThatIsNotWritten(t *testing.T) {
	var limit syscall.Rlimit
	check(t, syscall.Getrlimit(syscall.RLIMIT_FSIZE, &limit))
	signal.Ignore(syscall.SIGXFSZ)
	defer signal.Reset(syscall.SIGXFSZ)
	file := filepath.Join(t.TempDir(), "key")
	check(t, syscall.Setrlimit(syscall.RLIMIT_FSIZE, &syscall.Rlimit{Cur: 0, Max: limit.Max}))
	err := WriteSecret(file, []byte("secret"))
	check(t, syscall.Setrlimit(syscall.RLIMIT_FSIZE, &limit))
	diff.ErrorIs(t, err, syscall.EFBIG, "")
	diff.ErrorIs(t, diff.Err(os.Stat(file)), os.ErrNotExist, "the file")
}

func TestKeyIsWritten(t *testing.T) {
	file := filepath.Join(t.TempDir(), "key")
	if status, out, failed := key("--to", file); status != StatusDone || out+failed != "" {
		t.Fatalf("got the status %d, %q and %q, want 0 and nothing printed", status, out, failed)
	}
	written := diff.Value(os.ReadFile(file))(t)
	diff.Equal(t, oneKey.Match(written), true, "%q is one key", written)
	diff.Equal(t, diff.Value(os.Stat(file))(t).Mode().Perm(), 0o600, "the mode")
	status, out, failed := key("--to", file)
	if status != StatusUnusable || out != "" || !strings.Contains(failed, file+" exists already") {
		t.Errorf("again: got the status %d, %q and %q, want %d and that the file exists", status, out, failed, StatusUnusable)
	}
	diff.Equal(t, string(diff.Value(os.ReadFile(file))(t)), string(written), "the key")
	if status, _, failed := key("--to", file+"/below"); status != StatusUnusable || !strings.Contains(failed, file) {
		t.Errorf("below a file: got the status %d and %q, want %d and the file", status, failed, StatusUnusable)
	}
}
