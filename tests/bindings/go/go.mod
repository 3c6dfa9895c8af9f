module faultyard_tests

go 1.19

require faultyard v0.0.0

replace faultyard => ../../../bindings/go
