module client

go 1.15
