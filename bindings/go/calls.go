//go:build cgo

package confscript

/*
#cgo confscript_pkg_config pkg-config: confscript
#cgo confscript_pkg_config confscript_flags CFLAGS: -DCONFSCRIPT_IS_INSTALLED
#include "confscript.h"

// The compiled code is assembled as part of this file, with names that no other file sees, so that a program may have this
// package under several import paths, also with several versions.
#ifndef CONFSCRIPT_IS_INSTALLED
#if defined(__x86_64__)
#define CODE "confscript_linux_amd64.h"
#else
#define CODE "confscript_linux_arm64.h"
#endif
__asm__(".pushsection .text\n\t.set confscript_is_private, 1\n\t.include \"" CODE "\"\n\t.popsection");
#endif

// The values of a few voters, the incoming ones first. They are passed by value, so that Go keeps them on its stack.
struct few_indexes { uint64_t each[8]; };
struct more_indexes { uint64_t each[16]; };
struct few_ballots { uint8_t each[16]; };

static inline uint64_t committed_of_few(struct few_indexes few, size_t incoming, size_t outgoing) {
	return confscript_committed(few.each, incoming, few.each + incoming, outgoing);
}

static inline uint64_t committed_of_more(struct more_indexes more, size_t incoming, size_t outgoing) {
	return confscript_committed(more.each, incoming, more.each + incoming, outgoing);
}

static inline struct confscript_answer vote_of_few(struct few_ballots few, size_t incoming, size_t outgoing) {
	return confscript_vote(few.each, incoming, few.each + incoming, outgoing);
}
*/
import "C"

import "unsafe"

// This file alone calls the library: each function passes its arguments to the call of its name in confscript.h.

// An answer is what a call returns: a status and a number.
type answer = C.struct_confscript_answer

// The arrays of as many values as are passed to C by value.
type (
	fewIndexes  = [len(C.struct_few_indexes{}.each)]uint64
	moreIndexes = [len(C.struct_more_indexes{}.each)]uint64
	fewBallots  = [len(C.struct_few_ballots{}.each)]Ballot
)

func libraryVersion() uint32 {
	return uint32(C.confscript_version())
}

func callStatusText(status Status, out []byte) answer {
	return C.confscript_status_text(C.uint32_t(status), text(out), length(out))
}

func callPlan(configuration, target []byte, strategy Strategy, output Output, down []uint64, out []byte) answer {
	return C.confscript_plan(text(configuration), length(configuration), text(target), length(target), C.uint32_t(strategy),
		C.uint32_t(output), numbers(down), length(down), text(out), length(out))
}

func callApply(configuration, plan, out []byte) answer {
	return C.confscript_apply(text(configuration), length(configuration), text(plan), length(plan), text(out), length(out))
}

func callCheck(configuration []byte) answer {
	return C.confscript_check(text(configuration), length(configuration))
}

func callStages(configuration, target []uint64, strategy Strategy, down, out []uint64) answer {
	return C.confscript_stages(numbers(configuration), length(configuration), numbers(target), length(target), C.uint32_t(strategy),
		numbers(down), length(down), numbers(out), length(out))
}

func callNext(configuration, target []uint64, strategy Strategy, down, view, out []uint64) answer {
	return C.confscript_next(numbers(configuration), length(configuration), numbers(target), length(target), C.uint32_t(strategy),
		numbers(down), length(down), numbers(view), length(view), numbers(out), length(out))
}

func callRestore(configuration, out []uint64) answer {
	return C.confscript_restore(numbers(configuration), length(configuration), numbers(out), length(out))
}

func callStep(configuration []uint64, kind uint32, changes []ConfChangeSingle, out []uint64) answer {
	list := make([]C.struct_confscript_change, len(changes)+1)
	for i, change := range changes {
		list[i] = C.struct_confscript_change{kind: C.uint32_t(change.Type), id: C.uint64_t(change.NodeID)}
	}
	return C.confscript_step(numbers(configuration), length(configuration), C.uint32_t(kind), &list[0], length(changes), numbers(out), length(out))
}

func callMayBeDown(incoming, outgoing, down []uint64) answer {
	return C.confscript_may_be_down(numbers(incoming), length(incoming), numbers(outgoing), length(outgoing), numbers(down), length(down))
}

func committedOf(incoming, outgoing []uint64) uint64 {
	return uint64(C.confscript_committed(numbers(incoming), length(incoming), numbers(outgoing), length(outgoing)))
}

func committedOfFew(indexes *fewIndexes, incoming, outgoing int) uint64 {
	return uint64(C.committed_of_few(*(*C.struct_few_indexes)(unsafe.Pointer(indexes)), C.size_t(incoming), C.size_t(outgoing)))
}

func committedOfMore(indexes *moreIndexes, incoming, outgoing int) uint64 {
	return uint64(C.committed_of_more(*(*C.struct_more_indexes)(unsafe.Pointer(indexes)), C.size_t(incoming), C.size_t(outgoing)))
}

func voteOf(incoming, outgoing []byte) VoteResult {
	return VoteResult(C.confscript_vote(text(incoming), length(incoming), text(outgoing), length(outgoing)).number)
}

func voteOfFew(ballots *fewBallots, incoming, outgoing int) VoteResult {
	return VoteResult(C.vote_of_few(*(*C.struct_few_ballots)(unsafe.Pointer(ballots)), C.size_t(incoming), C.size_t(outgoing)).number)
}

// text returns a pointer to the first byte, or nil if there is none.
func text(list []byte) *C.uint8_t {
	if len(list) == 0 {
		return nil
	}
	return (*C.uint8_t)(unsafe.Pointer(&list[0]))
}

// numbers returns a pointer to the first number, or nil if there is none.
func numbers(list []uint64) *C.uint64_t {
	if len(list) == 0 {
		return nil
	}
	return (*C.uint64_t)(unsafe.Pointer(&list[0]))
}

func length[T any](list []T) C.size_t {
	return C.size_t(len(list))
}
