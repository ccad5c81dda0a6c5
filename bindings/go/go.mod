module confscript

go 1.18
