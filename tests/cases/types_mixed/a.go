package main
func f(*int, a b) {}
func main() {}
