package api

import (
	"bytes"
	"crypto/sha256"
	"crypto/subtle"
	"encoding/hex"
	"errors"
	"fmt"
	"io"
	"net"
	"net/netip"
	"net/url"
	"os"
	"regexp"
	"strings"
)

// ShortestToken is how many characters a token has at least. A shorter one could be guessed from its SHA-256.
const ShortestToken = 32

// longestTokens is how many bytes a file with tokens may have.
const longestTokens = 64 << 10

// A Permission is what the holder of a token may do.
type Permission uint8

const (
	// Read allows to read instances, bindings, brokers and counts.
	Read Permission = 1 << iota
	// Write allows to create, remove, retry and abandon, and to write brokers. It doesn't include Read.
	Write
	// Credentials allows to read the credentials of bindings. Neither Read nor Write includes it.
	Credentials
)

var permissions = map[string]Permission{"read": Read, "write": Write, "credentials": Credentials}

// A Token is known by the SHA-256 of its text, so that a file of tokens shows none.
type Token struct {
	Name        string // for the log
	Permissions Permission
	Digest      [sha256.Size]byte
}

var tokenName = regexp.MustCompile(`^[A-Za-z0-9_.-]{1,64}$`)

// ReadTokens reads the tokens of a file. Each line has the name of a token, a blank, its permissions with commas
// between them, a blank, and the SHA-256 of the token in hexadecimal digits:
//
//	portal read,write 2bb80d537b1da3e38bd30361aa855686bde0eacd7162fef6a25fe97bf527a25b
//
// Empty lines and lines that begin with # are skipped. Two tokens may have one name, for example while a token is
// changed. Make a token of random digits, and its SHA-256:
//
//	token=$(openssl rand -hex 32); printf %s "$token" | sha256sum
//
// The warning is for the log. It is empty, unless others than its owner may read or write the file.
//
// Errors: the file can't be read or is longer than 64 KiB; a line isn't as described; two lines have the same token;
// there is none. No error contains a digest. (The file is this project's choice.)
func ReadTokens(file string) (tokens []Token, warning string, err error) {
	text, warning, err := contents(file)
	if err != nil {
		return nil, "", err
	}
	for number, line := range strings.Split(text, "\n") {
		if line == "" || line[0] == '#' {
			continue
		}
		token, err := tokenOf(line)
		if err != nil {
			return nil, "", fmt.Errorf("line %d of %s: %w", number+1, file, err)
		}
		tokens = append(tokens, token)
	}
	if err := checkTokens(tokens); err != nil {
		return nil, "", fmt.Errorf("%s: %w", file, err)
	}
	return tokens, warning, nil
}

func contents(name string) (text, warning string, err error) {
	file, err := os.Open(name)
	if err != nil {
		return "", "", err
	}
	defer file.Close()
	about, err := file.Stat()
	if err != nil {
		return "", "", err
	}
	if mode := about.Mode(); mode.IsRegular() && mode.Perm()&0o077 != 0 {
		warning = fmt.Sprintf("%s has the mode %04o. Run: chmod 600 %s", name, mode.Perm(), name)
	}
	read, err := io.ReadAll(io.LimitReader(file, longestTokens+1))
	if err != nil {
		return "", "", err
	}
	if len(read) > longestTokens {
		return "", "", fmt.Errorf("%s is longer than %d bytes", name, longestTokens)
	}
	return string(read), warning, nil
}

func tokenOf(line string) (Token, error) {
	parts := strings.Split(line, " ")
	if len(parts) != 3 {
		return Token{}, errors.New("it isn't a name, permissions and a SHA-256, with one blank between them")
	}
	token := Token{Name: parts[0]}
	if !tokenName.MatchString(token.Name) {
		return Token{}, errors.New("the name of a token has 1 to 64 characters: letters, digits, and _.-")
	}
	for _, part := range strings.Split(parts[1], ",") {
		permission, isKnown := permissions[part]
		if !isKnown {
			return Token{}, errors.New("a permission is read, write or credentials")
		}
		token.Permissions |= permission
	}
	digest, err := hex.DecodeString(parts[2])
	if err != nil || len(digest) != len(token.Digest) {
		return Token{}, errors.New("a SHA-256 has 64 hexadecimal digits")
	}
	copy(token.Digest[:], digest)
	return token, nil
}

// checkTokens returns an error unless there are tokens, and each is another one.
func checkTokens(tokens []Token) error {
	if len(tokens) == 0 {
		return errors.New("there is no token")
	}
	for at, token := range tokens {
		if token.Name == "" || token.Permissions == 0 {
			return errors.New("a token has a name and a permission")
		}
		for _, other := range tokens[:at] {
			if bytes.Equal(token.Digest[:], other.Digest[:]) {
				return fmt.Errorf("the tokens %s and %s are the same", other.Name, token.Name)
			}
		}
	}
	return nil
}

// tokenIn returns the token of an Authorization field, or nil. It compares all digests in constant time.
func tokenIn(tokens []Token, authorization []string) *Token {
	if len(authorization) != 1 {
		return nil
	}
	scheme, text, _ := strings.Cut(authorization[0], " ")
	if !strings.EqualFold(scheme, "Bearer") || len(text) < ShortestToken {
		return nil
	}
	digest, found := sha256.Sum256([]byte(text)), -1
	for at := range tokens {
		found = subtle.ConstantTimeSelect(subtle.ConstantTimeCompare(digest[:], tokens[at].Digest[:]), at, found)
	}
	if found < 0 {
		return nil
	}
	return &tokens[found]
}

// Hosts are those that a broker may be at whose URL is given by a token. The zero Hosts are all.
type Hosts struct{ rules []hostRule }

// A hostRule is one of Hosts: a network of addresses, or a name.
type hostRule struct {
	network netip.Prefix // if it is valid
	name    string       // in lower case. That of all names below another one begins with a point
	port    string       // or empty for all
}

// ParseHosts reads hosts. Each is
//
//	broker.example        that name
//	*.broker.example      all names below it
//	10.1.0.0/16           the addresses of that network, and 10.1.2.3 that address
//
// and may have a port behind a colon: an IPv6 address stands in brackets then. A name isn't looked up: a network allows
// only URLs that have an address of it.
//
// Errors: a text is none of these.
func ParseHosts(texts []string) (Hosts, error) {
	var hosts Hosts
	for _, text := range texts {
		rule, err := parseHost(text)
		if err != nil {
			return Hosts{}, fmt.Errorf("%q: %w", text, err)
		}
		hosts.rules = append(hosts.rules, rule)
	}
	return hosts, nil
}

var errHost = errors.New("want a name, *.NAME, an address or a network, with or without a port")

func parseHost(text string) (rule hostRule, err error) {
	if network, err := netip.ParsePrefix(text); err == nil {
		return hostRule{network: network.Masked()}, nil
	}
	host := text
	if name, port, err := net.SplitHostPort(text); err == nil {
		if host, rule.port = name, port; !isPort(port) {
			return rule, errHost
		}
	}
	host = strings.TrimSuffix(strings.TrimPrefix(host, "["), "]")
	if address, err := netip.ParseAddr(host); err == nil {
		rule.network = netip.PrefixFrom(address.Unmap(), address.Unmap().BitLen())
		return rule, nil
	}
	if network, err := netip.ParsePrefix(host); err == nil {
		rule.network = network.Masked()
		return rule, nil
	}
	rule.name = canonical(strings.TrimPrefix(host, "*"))
	isName := rule.name != "" && rule.name != "." && strings.Trim(rule.name, nameCharacters) == ""
	if !isName || strings.HasPrefix(rule.name, ".") != strings.HasPrefix(host, "*") {
		return rule, errHost
	}
	return rule, nil
}

const nameCharacters = "abcdefghijklmnopqrstuvwxyz0123456789-_."

func isPort(text string) bool {
	return text != "" && len(text) <= 5 && strings.Trim(text, "0123456789") == ""
}

// canonical is a name in lower case, without the point at its end.
func canonical(name string) string { return strings.TrimSuffix(strings.ToLower(name), ".") }

// Allows reports whether a broker may be at a URL.
func (h Hosts) Allows(text string) bool {
	if h.rules == nil {
		return true
	}
	at, err := url.Parse(text)
	if err != nil || at.Hostname() == "" {
		return false
	}
	port := at.Port()
	if port == "" {
		port = map[string]string{"http": "80", "https": "443"}[strings.ToLower(at.Scheme)]
	}
	for _, rule := range h.rules {
		if (rule.port == "" || rule.port == port) && rule.allows(canonical(at.Hostname())) {
			return true
		}
	}
	return false
}

func (r hostRule) allows(host string) bool {
	address, err := netip.ParseAddr(host)
	switch {
	case r.network.IsValid():
		return err == nil && address.Zone() == "" && r.network.Contains(address.Unmap())
	case strings.HasPrefix(r.name, "."):
		return strings.HasSuffix(host, r.name) && len(host) > len(r.name)
	}
	return host == r.name
}
