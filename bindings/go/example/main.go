// Plans the change that replaces 1 with 5, applies the plan, and computes the committed index afterwards.
package main

import (
	"confscript"
	"fmt"
	"log"
)

func main() {
	now := "Voters:[1 2 3] VotersOutgoing:[] Learners:[] LearnersNext:[] AutoLeave:false"
	steps, err := confscript.Plan(now, "r1 v5")
	if err != nil {
		log.Fatal(err)
	}
	after, err := confscript.Apply(now, steps)
	if err != nil {
		log.Fatal(err)
	}
	index := confscript.Committed([]uint64{2, 3, 5}, nil, map[uint64]uint64{2: 9, 3: 7})
	fmt.Printf("%s%s\ncommitted %d\n", steps, after, index)
}
