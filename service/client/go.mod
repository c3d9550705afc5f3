module lrcman/service/client

go 1.19
