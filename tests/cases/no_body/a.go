package main
func f(a, b *int, c [3]int) (x []int)
func main() { println(1) }
