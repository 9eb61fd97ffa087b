package main

func show(n int) int {
	println(n)
	return n
}

func sum(a, b, c int) int {
	println(a, b, c)
	return a + b*c
}

func main() {
	x := show(1)
	x, y := show(2), show(x+2)
	println(sum(show(4), x, show(5)), y)
}
