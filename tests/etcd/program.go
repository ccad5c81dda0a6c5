package etcd

import (
	"bytes"
	"os"
	"os/exec"
	"testing"
)

// confscriptStatus runs the program that the environment variable CONFSCRIPT names, and returns its standard output
// and its status. A status above 1 says that the input was wrong or that something failed, which ends the test.
func confscriptStatus(t *testing.T, input string, args ...string) (string, int) {
	t.Helper()
	command := exec.Command(os.Getenv("CONFSCRIPT"), args...)
	command.Stdin = bytes.NewBufferString(input)
	var output, report bytes.Buffer
	command.Stdout, command.Stderr = &output, &report
	err := command.Run()
	status := command.ProcessState.ExitCode()
	if err != nil && status != 1 {
		t.Fatalf("confscript %v: %v: %s", args, err, report.String())
	}
	return output.String(), status
}

// confscript returns what the program prints, which must end well.
func confscript(t *testing.T, input string, args ...string) string {
	t.Helper()
	output, status := confscriptStatus(t, input, args...)
	if status != 0 {
		t.Fatalf("confscript %v: status %d", args, status)
	}
	return output
}

// rewrite returns the script as confscript writes it, with the actual outputs. New members begin at next 0, as in
// etcd.
func rewrite(t *testing.T, script string) string {
	t.Helper()
	return confscript(t, script, "rewrite", "--next-floor", "0")
}
