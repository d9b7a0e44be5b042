package platform

import (
	"bytes"
	"encoding"
	"encoding/json"
	"fmt"
	"time"

	jsoniter "github.com/json-iterator/go"

	"pippinterm/osb"
)

// A Column is a member of an Entry or a Broker as every Store keeps it. If the tables of a Store lack the column, the
// Store adds it when it is opened. Each row that is there has NULL then, which leaves the member its zero value.
type Column[T any] struct {
	Name string
	// NotNull says that an empty text is written as it is, and not as NULL.
	NotNull bool
	// IsOfBinding says that only bindings have the column.
	IsOfBinding bool
	// IsLong says that the member may be long: Store.ReadAll leaves it out.
	IsLong bool
	// Member returns a pointer to the member: a *string, *int, *bool, *time.Time, *time.Duration or *[]byte, or a Text.
	Member func(*T) any
}

// A Text is a member that is kept as a text, or some members that are kept together in one. MarshalText returns nil for
// NULL, and UnmarshalText isn't called for NULL.
type Text interface {
	encoding.TextMarshaler
	encoding.TextUnmarshaler
}

func column[T any, M string | int | bool | time.Time | time.Duration | []byte](
	name string, member func(*T) *M,
) Column[T] {
	return Column[T]{Name: name, Member: func(of *T) any { return member(of) }}
}

func textColumn[T any, M Text](name string, member func(*T) M) Column[T] {
	return Column[T]{Name: name, Member: func(of *T) any { return member(of) }}
}

func (c Column[T]) notNull() Column[T] {
	c.NotNull = true
	return c
}

func (c Column[T]) long() Column[T] {
	c.IsLong = true
	return c
}

func (c Column[T]) ofBinding() Column[T] {
	c.IsOfBinding = true
	return c
}

// Value returns what the column has: nil for NULL, or a string, an int, a bool, a time.Time, a time.Duration
// or a []byte.
func (c Column[T]) Value(of *T) (any, error) {
	switch member := c.Member(of).(type) {
	case *string:
		if *member != "" || c.NotNull {
			return *member, nil
		}
	case *int:
		return *member, nil
	case *bool:
		return *member, nil
	case *time.Time:
		if !member.IsZero() {
			return *member, nil
		}
	case *time.Duration:
		return *member, nil
	case *[]byte:
		if *member != nil {
			return *member, nil
		}
	case Text:
		if text, err := member.MarshalText(); text != nil || err != nil || c.NotNull {
			return string(text), err
		}
	default:
		panic(fmt.Sprintf("platform: the column %s can't have a %T", c.Name, member))
	}
	return nil, nil
}

// Differs reports whether the column may have different values of two entries or brokers.
func (c Column[T]) Differs(one, other *T) bool {
	switch member := c.Member(one).(type) {
	case *string:
		return *member != *c.Member(other).(*string)
	case *int:
		return *member != *c.Member(other).(*int)
	case *bool:
		return *member != *c.Member(other).(*bool)
	case *time.Time:
		return !member.Equal(*c.Member(other).(*time.Time))
	case *time.Duration:
		return *member != *c.Member(other).(*time.Duration)
	case *recordText:
		than := c.Member(other).(*recordText)
		return member.IsSent != than.IsSent || member.Record != than.Record
	case *operationText:
		than := c.Member(other).(*operationText)
		return (member.Operation == nil) != (than.Operation == nil) ||
			member.Operation != nil && *member.Operation != *than.Operation
	case *reasonText:
		return *member != *c.Member(other).(*reasonText)
	case *jsonText:
		return !bytes.Equal(*member, *c.Member(other).(*jsonText))
	}
	return true
}

// Columns are columns of a table.
type Columns[T any] []Column[T]

// Of returns the columns that instances have, or that bindings have.
func (c Columns[T]) Of(isBinding bool) (of Columns[T]) {
	for _, column := range c {
		if isBinding || !column.IsOfBinding {
			of = append(of, column)
		}
	}
	return of
}

// Names returns the names of the columns.
func (c Columns[T]) Names() (names []string) {
	for _, column := range c {
		names = append(names, column.Name)
	}
	return names
}

// A jsonText is an object as it was received, or nil.
type jsonText json.RawMessage

func (j *jsonText) MarshalText() ([]byte, error) { return *j, nil }

func (j *jsonText) UnmarshalText(text []byte) error {
	*j = append(jsonText(nil), text...)
	return nil
}

// An operationText is Entry.Operation.
type operationText Entry

func (o *operationText) MarshalText() ([]byte, error) {
	if o.Operation == nil {
		return nil, nil
	}
	return []byte(*o.Operation), nil
}

func (o *operationText) UnmarshalText(text []byte) error {
	operation := string(text)
	o.Operation = &operation
	return nil
}

// A recordText is Entry.Record, if it is sent. Entry.Key is read before.
type recordText Entry

func (r *recordText) MarshalText() (text []byte, err error) {
	switch {
	case !r.IsSent:
		return nil, nil
	case r.Key.IsBinding:
		text, err = r.Record.BindingText()
	default:
		text, err = r.Record.MarshalJSON()
	}
	if err != nil {
		err = fmt.Errorf("the record of %v: %w", r.Key, err)
	}
	return text, err
}

func (r *recordText) UnmarshalText(text []byte) (err error) {
	var record osb.Record
	if r.Key.IsBinding {
		record, err = osb.BindingRecordFromText(text)
	} else {
		err = record.UnmarshalJSON(text)
	}
	if err == nil {
		r.Record, r.IsSent = record, true
	}
	return err
}

// A reasonText is a Reason, which is NULL if it is zero.
type reasonText Reason

func (r *reasonText) MarshalText() ([]byte, error) {
	if *r == (reasonText{}) {
		return nil, nil
	}
	return keptLast{Reason: Reason(*r)}.marshal()
}

func (r *reasonText) UnmarshalText(text []byte) error {
	err := unmarshal(text, (*Reason)(r))
	r.At = r.At.UTC()
	return err
}

// unmarshal reads JSON. Bytes that aren't UTF-8 become U+FFFD, as they do where jsoniter.Marshal writes. Each step reads
// and writes such texts, and encoding/json takes several times as long.
func unmarshal(text []byte, to any) error {
	return jsoniter.Unmarshal(bytes.ToValidUTF8(text, []byte("\uFFFD")), to)
}

// A lastText is Entry.Last, Entry.Number and Entry.DueSince.
type lastText Entry

// A keptLast is a lastText in JSON.
type keptLast struct {
	Reason
	Claim    string `json:"claim,omitempty"`     // Entry.Number
	DueSince int64  `json:"due_since,omitempty"` // in milliseconds since 1970
}

// MarshalText writes DueSince as the number of the member due_since, in milliseconds since 1970, which comes last.
func (l *lastText) MarshalText() ([]byte, error) {
	if l.Last == (Reason{}) && l.DueSince.IsZero() && l.Number == (osb.ID{}) {
		return nil, nil
	}
	kept := keptLast{Reason: l.Last}
	if l.Number != (osb.ID{}) {
		kept.Claim = l.Number.String()
	}
	if !l.DueSince.IsZero() {
		kept.DueSince = l.DueSince.UnixMilli()
	}
	return kept.marshal()
}

// marshal writes what jsoniter.Marshal does, with At in UTC, in less time: each step writes such a text.
func (k keptLast) marshal() ([]byte, error) {
	at, err := k.At.UTC().MarshalJSON()
	to := jsoniter.ConfigDefault.BorrowStream(nil)
	defer jsoniter.ConfigDefault.ReturnStream(to)
	to.WriteRaw(`{"at":`)
	to.SetBuffer(append(to.Buffer(), at...))
	to.WriteRaw(`,"kind":`)
	to.WriteStringWithHTMLEscaped(k.Kind)
	if k.Status != 0 {
		to.WriteRaw(`,"status":`)
		to.WriteInt(k.Status)
	}
	for _, member := range [...]struct{ name, text string }{
		{`,"error":`, k.Error}, {`,"description":`, k.Description}, {`,"lost":`, k.Lost}, {`,"claim":`, k.Claim},
	} {
		if member.text != "" {
			to.WriteRaw(member.name)
			to.WriteStringWithHTMLEscaped(member.text)
		}
	}
	if k.DueSince != 0 {
		to.WriteRaw(`,"due_since":`)
		to.WriteInt64(k.DueSince)
	}
	to.WriteRaw("}")
	return append([]byte(nil), to.Buffer()...), err
}

// UnmarshalText reads what MarshalText has written, also in version 0.2, which wrote no Claim and no DueSince.
func (l *lastText) UnmarshalText(text []byte) error {
	var kept keptLast
	if err := unmarshal(text, &kept); err != nil {
		return err
	}
	l.Last = kept.Reason
	l.Last.At = l.Last.At.UTC()
	if kept.Claim != "" {
		if err := l.Number.UnmarshalText([]byte(kept.Claim)); err != nil {
			return err
		}
	}
	if kept.DueSince != 0 {
		l.DueSince = time.UnixMilli(kept.DueSince).UTC()
	}
	return nil
}
