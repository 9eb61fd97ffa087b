package main

func bits(a, b int) {
	println(a&b, a|b, a^b, a&^b, b&^a, ^a, ^b)
}

func main() {
	bits(12, 10)
	bits(-12, 10)
	bits(-12, -10)
	bits(0, -1)
	bits(-9223372036854775808, 9223372036854775807)
	x := 6
	println(x|1<<3, x&3 == 2, x^x|x, ^x&^1, 1<<x|x, ^^x, ^-x)
}
