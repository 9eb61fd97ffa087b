package main

func two(n int) (q, r int) {
	q = n + 1
	r = n * 2
	return
}

func swap(a, b int) (int, int) {
	return b, a
}

func main() {
	a, b := two(5)
	a, b = b, a
	println(a, b)
	a, b = swap(swap(a, b))
	println(a, b)
	_, c := swap(a, 7)
	_, a = 1, c
	println(a, c)
	println(two2())
}

func two2() int {
	_, r := two(21)
	return r
}
