package main

func divide(a, b int) (int, int) {
	return a / b, a % b
}

func main() {
	var a int
	var b, c bool
	var d = 5
	var e, f = d + 1, d > 4
	var g int = -3
	var h, i int = 1, 2
	var (
		j    = e * 2
		k, l int
		m    bool = !b
	)
	println(a, b, c, d, e, f, g, h, i, j, k, l, m)
	var q, r = divide(17, 5)
	var _, s = divide(29, 10)
	println(q, r, s)
	for n := range 3 {
		var x int
		println(x)
		x += n + 1
		println(x)
	}
	{
		var a = a + 1
		var b = !b
		println(a, b)
	}
	println(a, b)
	var ()
}
