module lrcman/service/book

go 1.19
