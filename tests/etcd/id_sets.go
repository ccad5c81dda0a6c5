package etcd

import "sort"

// union returns the ids of all lists, each once.
func union(lists ...[]uint64) (ids []uint64) {
	for _, list := range lists {
		ids = append(ids, without(list, ids)...)
	}
	return ids
}

// both returns the ids that are in each list.
func both(ids []uint64, lists ...[]uint64) []uint64 {
	for _, list := range lists {
		ids = without(ids, without(ids, list))
	}
	return ids
}

// ascending returns ids in ascending order.
func ascending(ids []uint64) []uint64 {
	sorted := append([]uint64(nil), ids...)
	sort.Slice(sorted, func(i, j int) bool { return sorted[i] < sorted[j] })
	return sorted
}
