package postgres

import (
	"bytes"
	"encoding/hex"
	"errors"
	"fmt"
	"io"
	"math"
	"strings"
	"time"

	jsoniter "github.com/json-iterator/go"

	"pippinterm/platform"
)

// writeValue writes a value of a column (platform.Column.Value). Times are seconds since 1970, in whole microseconds.
func writeValue(to *jsoniter.Stream, value any) {
	switch it := value.(type) {
	case string:
		to.WriteString(storable(it))
	case int:
		to.WriteInt(it)
	case bool:
		to.WriteBool(it)
	case time.Time:
		to.WriteFloat64(secondsOf(it))
	case time.Duration:
		to.WriteFloat64(it.Seconds())
	case []byte:
		to.WriteString(`\x` + hex.EncodeToString(it)) // as a column of the type bytea reads it
	default:
		to.WriteNil()
	}
}

// errNotRead reports that a text isn't JSON, or has a value of another type. The errors of jsoniter quote what is around
// the value, which may be secret.
var errNotRead = errors.New("it isn't JSON of the column's type")

// valuesOf returns an iterator over JSON, where bytes that aren't UTF-8 become U+FFFD.
func valuesOf(text []byte) *jsoniter.Iterator {
	return jsoniter.ParseBytes(jsoniter.ConfigDefault, bytes.ToValidUTF8(text, []byte("\uFFFD")))
}

// failureOf returns errNotRead if a call of values has failed. At the end of the text, values.Error is io.EOF.
func failureOf(values *jsoniter.Iterator) error {
	if values.Error != nil && values.Error != io.EOF {
		return errNotRead
	}
	return nil
}

// readInto reads the next value into the member of a column, which NULL leaves as it is. That of a Text is only returned,
// or nil if it is NULL.
//
// A number is read by strconv: ReadInt takes some that are beyond 64 bits for others.
func readInto(member any, values *jsoniter.Iterator) (text []byte, err error) {
	if values.ReadNil() {
		return nil, failureOf(values)
	}
	switch member := member.(type) {
	case *string:
		*member = values.ReadString()
	case *int:
		var read int64
		read, err = values.ReadNumber().Int64()
		*member = int(read)
	case *bool:
		*member = values.ReadBool()
	case *time.Time:
		var read float64
		read, err = values.ReadNumber().Float64()
		*member = timeOf(read)
	case *time.Duration:
		var read float64
		read, err = values.ReadNumber().Float64()
		*member = time.Duration(math.Round(read*1e6)) * time.Microsecond
	case *[]byte:
		*member, err = hex.DecodeString(strings.TrimPrefix(values.ReadString(), `\x`))
	case platform.Text:
		text = []byte(values.ReadString())
	default:
		err = fmt.Errorf("a column can't be read into %T", member)
	}
	return text, either(failureOf(values), err)
}
