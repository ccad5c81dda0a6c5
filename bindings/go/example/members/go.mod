// Debian has etcd's raft below GOPATH, where tests/etcd/example builds this without modules. With modules, import
// go.etcd.io/etcd/raft/v3 (etcd 3.5) or go.etcd.io/raft/v3 (3.6), and `go get` it.
module members

go 1.18

require confscript v0.0.0

replace confscript => ../..
