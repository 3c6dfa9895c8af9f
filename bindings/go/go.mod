module faultyard

go 1.19
