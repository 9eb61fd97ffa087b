package main
func main() { if x == T{1} { println(1) } }
