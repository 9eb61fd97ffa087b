package main

func show(n int) int {
	println(n)
	return n
}

func main() {
	print(1, 2, -3)
	println()
	print()
	print(true, false, 1 < 2)
	println()
	print(4)
	print(5)
	println(6)
	print(show(1), show(2))
	println(3, true, -4)
}
