// Package without has what a storm of both programs puts into osb-broker: folders that are slow and fail, and stores
// and locks that lack a part of the design. Into osb-platform it puts a client that ignores the numbers of requests, or
// a store that forgets. Without the build tag storm it is empty.
package without
