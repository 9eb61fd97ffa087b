package main
func main() { println(T{1}) }
