package etcd

import (
	"errors"
	"testing"

	library "confscript"
)

// TestNextOfLibrary compares the answers of the library with those of the table, on random views.
func TestNextOfLibrary(t *testing.T) {
	planner := &planner{map[string]*plan{}}
	for _, part := range []struct {
		name string
		most int
		wide bool
	}{{"up to five ids", 5, false}, {"up to nine ids of 64 bits", 9, true}} {
		t.Run(part.name, func(t *testing.T) {
			seen := make([]int, len(rows)+1)
			for _, s := range randomSituations(t, planner, 50000, part.most, part.wide) {
				seen[compareWithLibrary(t, s)]++
			}
			t.Log(seen)
			for row, times := range seen {
				if times < 20 {
					t.Errorf("row %d answers %d times", row, times)
				}
			}
		})
	}
}

// compareWithLibrary demands that the library answers as the table, and returns by which row, or 0 if both refuse.
func compareWithLibrary(t *testing.T, s *situation) int {
	found, err := nextOfLibrary(s)
	if s.isRefused() {
		if !errors.Is(err, library.ErrNoConfIndex) && !errors.Is(err, library.ErrNoLeaderProgress) && !errors.Is(err, library.ErrAutoLeaveTarget) {
			t.Fatalf("the library says %v, %v, and refuses nothing of %+v", found, err, s)
		}
		return 0
	}
	wanted, row := answerTo(s, rows)
	if err != nil || !isSameAnswer(found, wanted) {
		t.Fatalf("row %d says %v, the library %v, %v, to %+v", row, wanted, found, err, s)
	}
	return row
}
