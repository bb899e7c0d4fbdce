module bfdd

go 1.19
