module faultyard-serve

go 1.19

require faultyard v0.0.0

replace faultyard => ../../bindings/go
