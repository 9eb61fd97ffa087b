package main
var ( a int; b = 2
func main() {}
