//go:build cgo

// Package confscript plans the membership changes of an etcd or Raft cluster and shows how many servers may fail at each
// step, with code that is proved correct. It is a thin layer over that compiled code, which is part of this package for
// Linux on x86-64 and arm64; confscript.h says what each call returns.
//
// A plan leads from a configuration to a target, both of which are texts in one of the forms of confscript.h, such as
// "voters=(1 2 3)" or the JSON of a ConfState; the target may also be a list of changes, such as "r1 v4". Plan and PlanBy
// return the lines of its steps, and PlanAs another output. Apply and Check take a ConfState line.
//
// A program that embeds the library keeps a ConfState. Stages returns a plan from one to another as what to propose to
// etcd's raft, and ApplyConfChange the configuration after a proposal.
//
// Any goroutine may call, also at the same time as others: a call keeps no state, and only reads its arguments.
//
// The package needs cgo and a C compiler. To link an installed library in place of the compiled code in this package, use
// one of two build tags: with confscript_pkg_config the compiler finds it by pkg-config, and with confscript_flags by
// CGO_LDFLAGS.
package confscript

// #include "confscript.h"
import "C"

import (
	"fmt"
	"os"
)

// An installed library with another major or minor version than the header may have calls with other parameters.
func init() {
	const header = C.CONFSCRIPT_VERSION
	if library := Version(); library/100 != header/100 {
		fmt.Fprintf(os.Stderr, "confscript: the library has version %d.%d.%d, and this package is for version %d.%d\n",
			library/10000, library/100%100, library%100, header/10000, header/100%100)
		os.Exit(1)
	}
}

// Strategy is how a plan goes from one configuration to another.
type Strategy uint32

// The strategies. Plan uses Shortest.
const (
	Shortest      Strategy = C.CONFSCRIPT_STRATEGY_SHORTEST
	LearnersFirst Strategy = C.CONFSCRIPT_STRATEGY_LEARNERS_FIRST
	OneAtATime    Strategy = C.CONFSCRIPT_STRATEGY_ONE_AT_A_TIME
)

// Output is what is written of a plan.
type Output uint32

// The outputs. Plan and PlanBy write Steps.
const (
	Steps Output = C.CONFSCRIPT_OUTPUT_STEPS
	Table Output = C.CONFSCRIPT_OUTPUT_TABLE
	JSON  Output = C.CONFSCRIPT_OUTPUT_JSON
)

// Options is how a plan is made. Its zero value is the shortest plan, with no ids down.
type Options struct {
	Strategy Strategy
	// The ids that are down, in any order.
	Down []uint64
}

// Plan returns the steps of the shortest plan from a configuration to a target.
func Plan(configuration, target string) (string, error) {
	return PlanBy(Options{}, configuration, target)
}

// PlanBy returns the steps of the plan from a configuration to a target. If the plan stalls with the ids that are down,
// they begin with a line such as "# stalls with 4 5 down" or "# no quorum with 4 5 down: no step can be made".
func PlanBy(options Options, configuration, target string) (string, error) {
	return PlanAs(Steps, options, configuration, target)
}

// PlanAs returns the plan from a configuration to a target, as the program prints it with this output.
func PlanAs(output Output, options Options, configuration, target string) (string, error) {
	from, to := []byte(configuration), []byte(target)
	return written(func(out []byte) answer { return callPlan(from, to, options.Strategy, output, options.Down, out) })
}

// Apply returns the ConfState line of the configuration after the steps of a plan. A single step is a plan of one line.
func Apply(configuration, steps string) (string, error) {
	from, by := []byte(configuration), []byte(steps)
	return written(func(out []byte) answer { return callApply(from, by, out) })
}

// Check returns what is wrong with the configuration of a ConfState line, or nil.
func Check(configuration string) error {
	_, err := number(callCheck([]byte(configuration)))
	return err
}

// Version returns the version of the library: 10,000 for each major version, 100 for each minor one, and the patch.
func Version() uint32 {
	return libraryVersion()
}

// number returns the number of an answer, or the error of a call that was refused.
func number(answer answer) (uint64, error) {
	if answer.status != C.CONFSCRIPT_STATUS_DONE {
		return 0, &Refused{Status(answer.status), uint64(answer.number)}
	}
	return uint64(answer.number), nil
}

// written returns the text that a call writes.
func written(call func(out []byte) answer) (string, error) {
	text, err := filled(call)
	return string(text), err
}

// filled returns what a call writes to a buffer. If that is too small, the call is made again with a larger one.
func filled[T byte | uint64](call func(out []T) answer) ([]T, error) {
	out := make([]T, 256)
	for {
		answer := call(out)
		if answer.status != C.CONFSCRIPT_STATUS_TOO_SMALL {
			length, err := number(answer)
			return out[:length], err
		}
		out = make([]T, answer.number)
	}
}
