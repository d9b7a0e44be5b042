package osb

/*
#include <osb.h>

struct id_read {
	struct osb_id id;
	uint32_t status;
};

static struct id_read read_id(_GoString_ text) {
	size_t length = _GoStringLen(text);
	struct id_read it;
	it.status = osb_id_from_text((const uint8_t *)(length == 0 ? "" : _GoStringPtr(text)), length, &it.id);
	return it;
}
*/
import "C"

import (
	"database/sql/driver"
	"encoding/binary"
	"encoding/hex"
	"fmt"
)

// An ID is the number of an id of an instance, a service or a plan. The id itself is any text of 1 to 255 bytes of
// UTF-8, and IDOfText is its number. The bytes of a GUID in lower case are those that it writes, the first digits
// first, so that an ID may be converted to and from the types of other packages that are [16]byte.
type ID [16]byte

// IDOfText is the id that a text names, as a request or a catalogue has it. A GUID in lower case is its own number. Any
// other text, among them a GUID with a digit in upper case, has the first 128 bits of its SHA-256. The standard
// compares ids byte by byte; the numbers and the greatest length are this project's choice.
//
// Errors: ErrNotUTF8, and ErrNotAnID if the text is empty or longer than 255 bytes.
func IDOfText(text string) (ID, error) {
	given := []byte(text)
	var id C.struct_osb_id
	if err := errorOf(C.osb_id_of_text(pointer(given), size(given), &id)); err != nil {
		return ID{}, err
	}
	return idOf(id), nil
}

// ParseID reads a GUID, 36 bytes in either case, as 12345678-9abc-def0-1234-56789abcdef0: the number that its digits
// write. Every other text is ErrNotAnID. For the id in a request or a catalogue call IDOfText.
func ParseID(text string) (ID, error) {
	read := C.read_id(text)
	if err := errorOf(read.status); err != nil {
		return ID{}, err
	}
	return idOf(read.id), nil
}

// MustParseID is ParseID for texts that stand in a program. It panics where the text is no id's.
func MustParseID(text string) ID {
	id, err := ParseID(text)
	if err != nil {
		panic(fmt.Sprintf("osb: %q: %v", text, err))
	}
	return id
}

// String is the number of the id as a GUID in lower case, which is the id's text only if that is such a GUID.
func (id ID) String() string {
	text := id.text()
	return string(text[:])
}

// MarshalText writes the number of the id as String has it. So does encoding/json. The error is always nil.
func (id ID) MarshalText() ([]byte, error) {
	text := id.text()
	return text[:], nil
}

// text is the text that osb_id_to_text writes. A broker writes several ids for each request, so it is written here
// without a call of C. A test compares both.
func (id ID) text() (text [36]byte) {
	hex.Encode(text[:8], id[:4])
	hex.Encode(text[9:13], id[4:6])
	hex.Encode(text[14:18], id[6:8])
	hex.Encode(text[19:23], id[8:10])
	hex.Encode(text[24:], id[10:])
	text[8], text[13], text[18], text[23] = '-', '-', '-', '-'
	return text
}

// textOfLibrary is the text that osb_id_to_text writes.
func (id ID) textOfLibrary() (text [36]byte) {
	C.osb_id_to_text(id.c(), pointer(text[:]))
	return text
}

// UnmarshalText reads an id as ParseID does. Where it is refused the id is as before.
func (id *ID) UnmarshalText(text []byte) error {
	read, err := ParseID(string(text))
	if err == nil {
		*id = read
	}
	return err
}

// Value is the text of the id, for a column of a text type or of PostgreSQL's uuid.
func (id ID) Value() (driver.Value, error) { return id.String(), nil }

// Scan reads the text of an id from a column. NULL isn't an id's.
func (id *ID) Scan(column any) error {
	text, isString := column.(string)
	if !isString {
		return scan(column, id.UnmarshalText)
	}
	read, err := ParseID(text)
	if err == nil {
		*id = read
	}
	return err
}

// scan hands the text of a column on.
func scan(column any, read func([]byte) error) error {
	switch text := column.(type) {
	case string:
		return read([]byte(text))
	case []byte:
		return read(text)
	default:
		return fmt.Errorf("osb: a column holds %T, and not a text", column)
	}
}

func (id ID) c() C.struct_osb_id {
	return C.struct_osb_id{
		high: C.uint64_t(binary.BigEndian.Uint64(id[:8])),
		low:  C.uint64_t(binary.BigEndian.Uint64(id[8:])),
	}
}

func idOf(id C.struct_osb_id) ID {
	var read ID
	binary.BigEndian.PutUint64(read[:8], uint64(id.high))
	binary.BigEndian.PutUint64(read[8:], uint64(id.low))
	return read
}

// Names are the texts of a request's ids, as the platform and the catalogue have them: each is any string of 1 to 255
// bytes of UTF-8, and IDOfText is its number.
type Names struct {
	Instance string // instance_id, which stands in the path
	Service  string // service_id
	Plan     string // plan_id
}

// WriteNamedTarget writes the target of a request: the path, which begins with the prefix (empty, or what the
// broker's URL has before /v2, with no question mark), and the query. The texts of the ids are escaped as a path and
// a query need it (sections Provisioning, Polling Last Operation for Service Instances and Deprovisioning). Each text
// must be that of the request's id, so no other instance is asked for. The operation is the broker's, or nil; give
// one to a Poll alone.
//
// Errors: ErrNotUTF8 (prefix, any text, or operation), ErrBadKind, ErrNotInstanceText, ErrNotServiceText,
// ErrNotPlanText, ErrMemory. An instance named "." or ".." is ErrNotInstanceText too, since HTTP clients resolve such a
// path.
func WriteNamedTarget(prefix string, request Request, names Names, operation *string) (string, error) {
	before, asked := []byte(prefix), request.c()
	instance, service, plan := []byte(names.Instance), []byte(names.Service), []byte(names.Plan)
	named, hasOperation := optional(operation)
	text, err := textFrom(func(buffer *C.uint8_t, bytes C.size_t, needed *C.size_t) C.uint32_t {
		return C.osb_write_named_target(pointer(before), size(before), &asked, pointer(instance), size(instance),
			pointer(service), size(service), pointer(plan), size(plan), hasOperation, pointer(named), size(named),
			buffer, bytes, needed)
	})
	return string(text), err
}

// WriteNamedBody writes the body of a request of the kind with the texts of its ids: of a Provision an object of the
// service, the plan, the organization and the space, neither of which may be empty, and the members of further, the
// text of an object ({} for none), as context, parameters or maintenance_info; else an empty text (section
// Provisioning). It doesn't compare the texts with a request: WriteNamedTarget does.
//
// Errors: ErrNotUTF8 (any text), ErrBadKind, ErrNotJSON and ErrNotAnObject (further), ErrMemory.
func WriteNamedBody(kind Kind, names Names, organization, space string, further []byte) ([]byte, error) {
	service, plan, orgID, spaceID := []byte(names.Service), []byte(names.Plan), []byte(organization), []byte(space)
	return textFrom(func(buffer *C.uint8_t, bytes C.size_t, needed *C.size_t) C.uint32_t {
		return C.osb_write_named_body(C.uint8_t(kind), pointer(service), size(service), pointer(plan), size(plan),
			pointer(orgID), size(orgID), pointer(spaceID), size(spaceID), pointer(further), size(further), buffer, bytes, needed)
	})
}
