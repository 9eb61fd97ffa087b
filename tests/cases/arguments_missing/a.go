package main
func f(a, b int) int { return a }
func main() { println(f(1)) }
