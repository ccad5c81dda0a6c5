package etcd

import (
	"bufio"
	"encoding/json"
	"strings"
	"testing"

	"go.etcd.io/etcd/raft"
	pb "go.etcd.io/etcd/raft/raftpb"
)

// strategies are the values of the option --strategy.
var strategies = []string{"shortest", "learners-first", "one-at-a-time"}

// A planLine is a line of `plan --output json`: a step, an empty plan, or a pair without a plan.
type planLine struct {
	CatchingUp       []uint64        `json:"catch_up"`
	ConfChange       pb.ConfChangeV2 `json:"conf_change"`
	ConfState        pb.ConfState    `json:"conf_state"`
	Down             []uint64        `json:"down"` // of --down, ascending
	MayBeDown        int             `json:"may_be_down"`
	MayBeDownBesides *int            `json:"may_be_down_besides"` // with --down; null if it stalls
	NoPlan           string          `json:"no_plan"`
	Plan             int             `json:"plan"`
	Stalls           bool            `json:"stalls"` // with --down
	Step             int             `json:"step"`
	Steps            int             `json:"steps"`
	WhileCatchingUp  *int            `json:"until_then"` // null if it stalls
}

// A plan leads from one configuration to another.
type plan struct {
	strategy    string
	now, target pb.ConfState
	lines       []planLine
	stalls      bool // with --down
}

// after returns the configurations after the steps.
func (p *plan) after() (states []pb.ConfState) {
	for _, line := range p.lines {
		states = append(states, line.ConfState)
	}
	return states
}

// inputFor writes the pairs of configurations as the input of `plan`: one as lines, and the next as JSON.
func inputFor(t *testing.T, pairs []*plan) string {
	var input strings.Builder
	for i, p := range pairs {
		for _, state := range []pb.ConfState{p.now, p.target} {
			text := raft.DescribeConfState(state)
			if i%2 == 1 {
				written, err := json.Marshal(state)
				if err != nil {
					t.Fatal(err)
				}
				text = string(written)
			}
			input.WriteString(text + "\n")
		}
	}
	return input.String()
}

// readLines gives each plan its lines. The lines of each plan are numbered from 1, and so are the plans.
func readLines(t *testing.T, output string, pairs []*plan) {
	scanner := bufio.NewScanner(strings.NewReader(output))
	scanner.Buffer(nil, 1<<20)
	for scanner.Scan() {
		var line planLine
		decoder := json.NewDecoder(strings.NewReader(scanner.Text()))
		decoder.DisallowUnknownFields()
		if err := decoder.Decode(&line); err != nil {
			t.Fatalf("%v: %s", err, scanner.Text())
		}
		if line.Plan < 1 || line.Plan > len(pairs) {
			t.Fatalf("there is no such plan: %s", scanner.Text())
		}
		p := pairs[line.Plan-1]
		p.stalls = line.Stalls
		if line.NoPlan == "" && line.Steps == 0 {
			continue
		}
		p.lines = append(p.lines, line)
		if line.NoPlan == "" && line.Step != len(p.lines) {
			t.Fatalf("this is step %d: %s", len(p.lines), scanner.Text())
		}
	}
	for _, p := range pairs {
		if len(p.lines) > 0 && p.lines[0].NoPlan == "" && p.lines[0].Steps != len(p.lines) {
			t.Fatalf("%d of %d steps for\n%s", len(p.lines), p.lines[0].Steps, describe(p.now, p.target))
		}
	}
}

// askPlans asks confscript for the plans of all pairs at once, and returns its status.
func askPlans(t *testing.T, strategy string, pairs []*plan, options ...string) int {
	arguments := append([]string{"plan", "--strategy", strategy, "--output", "json"}, options...)
	output, status := confscriptStatus(t, inputFor(t, pairs), arguments...)
	readLines(t, output, pairs)
	return status
}

// settled returns the configuration after the line. etcd leaves one with auto-leave by itself.
func (line planLine) settled() pb.ConfState {
	if line.ConfState.AutoLeave {
		return left(line.ConfState)
	}
	return line.ConfState
}

// passed returns the configurations that etcd passes through from before the line to after it.
func (line planLine) passed() []pb.ConfState {
	if line.ConfState.AutoLeave {
		return []pb.ConfState{line.ConfState, left(line.ConfState)}
	}
	return []pb.ConfState{line.ConfState}
}
