module check

go 1.19

require warg v0.0.0

replace warg => ../../go
