module archcaraway

go 1.19
