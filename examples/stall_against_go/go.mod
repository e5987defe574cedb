module stall_against_go

go 1.18
