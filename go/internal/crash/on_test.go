//go:build crashpoints

package crash

import (
	"strings"
	"testing"

	"pippinterm/internal/diff"
)

func TestCheck(t *testing.T) {
	for _, point := range append([]string{""}, points...) {
		t.Setenv(variable, point)
		diff.NoError(t, Check(points), "%q", point)
	}
	t.Setenv(variable, "begin-nxt")
	err := Check(points)
	if err == nil || !strings.Contains(err.Error(), `"begin-nxt"`) {
		t.Fatalf("got the error %v, want one that names begin-nxt", err)
	}
	for _, point := range points {
		diff.Contains(t, err.Error(), point, "")
	}
}
