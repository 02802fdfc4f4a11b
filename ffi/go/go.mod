module warg

go 1.19
