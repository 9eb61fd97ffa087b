package main

func shifted(x, n int) int {
	x >>= n
	return x
}

func main() {
	println(shifted(-8, 1))
	println(shifted(5, -9223372036854775808))
}
