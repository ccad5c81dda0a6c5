// Package etcd compares confscript with etcd's raft packages, as Debian ships them.
//
// Nothing here is part of confscript. The tests run the program and ask etcd's own code what the answer is:
//
//   - a script is rewritten by confscript, and again by datadriven with the answers of confchange, quorum and tracker
//     (session.go); both texts have to be the same bytes,
//   - the lines of a plan are proposed to a cluster of RawNodes (cluster.go), whose configurations have to be those that
//     confscript names,
//   - the same on a cluster that serves meanwhile, over a network that drops and reorders messages, and with members that
//     restart and are down (service.go, network.go); what the members show may not contradict itself (history.go),
//   - what etcd's own quick checks ask of confchange is asked of confscript (quick_test.go),
//   - rules that etcd's raft leaves to a program are broken, one by one, until two members have applied different entries
//     (schedules_test.go),
//   - a model of what to do next (next.go) answers as confscript.Next, which leads a store from target to target under faults
//     (store.go),
//   - random runs keep these rules from outside, and are held against the invariants that then hold (trial.go, observer.go).
//
// All that is left to chance comes from seeds, etcd's election timeouts too (election_timeouts.go). No test looks at the
// time of day: clocks tick when the tests say so, and what does not come within a number of rounds has failed.
//
// README.md says what this shows, and what confscript does in its own way.
package etcd
