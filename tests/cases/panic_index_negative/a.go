package main

var (
	values [4]int
	last   = -1
)

func value(n int) int {
	println("value", n)
	return n
}

func main() {
	values[value(3)] = value(5)
	println(values[3])
	values[last] = value(6)
	println("not reached")
}
