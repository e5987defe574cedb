module chanhub

go 1.18
