module hpkebatch

go 1.19
