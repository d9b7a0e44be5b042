package crash

// points are the names of all points, in the order in which a request reaches them. A test compares them with the calls
// of At and Soon.
var points = []string{
	"begin-next", "begin-written", "begin-update-next", "begin-update-written", "mark-next", "mark-written",
	"work-next", "work-running", "work-half", "binding-half", "work-done",
	"end-next", "end-written", "end-update-next", "end-update-written",
	"take-over-next", "take-over-written", "operation-next", "operation-done", "finish-next", "finish-written",
	"finish-update-next", "finish-update-written",
	"wait-next", "wait-written",
}

// Points returns the names of all points. A process reaches none of them unless it was built with the tag crashpoints.
func Points() []string { return append([]string{}, points...) }
