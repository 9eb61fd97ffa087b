package main

func main() {
	x := 1 + 2*3
	println(x, -x)
	println()
	println(-9223372036854775808)
}
