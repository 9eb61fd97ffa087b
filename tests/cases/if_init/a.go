package main

func half(n int) (int, bool) {
	return n / 2, n%2 == 0
}

func kind(n int) int {
	if h, even := half(n); even {
		return h
	} else if m := n % 3; m == 0 {
		return -h
	} else if n > 10 {
		return m * 100
	} else {
		h, m := 7, h+m
		return h*10 + m
	}
}

func main() {
	println(kind(8), kind(9), kind(11), kind(5), kind(7), kind(-5))
	x := 1
	if x++; x == 2 {
		println(x)
	}
	if x = 5; x > 9 {
		println(0)
	} else if x += 3; x > 9 {
		println(0)
	} else if println(6); x == 8 {
		println(x)
	}
	if x := 9; x > 8 {
		x++
		println(x)
	}
	println(x)
	if x := x > 7; x {
		println(x)
	}
}
