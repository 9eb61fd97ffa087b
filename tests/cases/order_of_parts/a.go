package main

type pair struct {
	a, b int
}

var values [4]int

func show(n int) int {
	print(n, " ")
	return n
}

func main() {
	var a [3]int
	i := 0
	i, a[i] = 1, 2
	println(i, a[0], a[1])
	i = 0
	a[i], i = 5, 1
	println(i, a[0], a[1])
	a[0], a[0] = 1, 2
	println(a[0])
	a[0], a[1], a[2] = a[2], a[0], a[1]
	println(a[0], a[1], a[2])
	i, a[i], a[a[i]] = a[1], 7, 8
	println(i, a[0], a[1], a[2])

	p := pair{1, 2}
	p.a, p.b = p.b, p.a
	println(p.a, p.b)
	p, p.a = pair{5, 6}, 9
	println(p.a, p.b)
	p.a, p = 9, pair{5, 6}
	println(p.a, p.b)
	q := pair{p.b, p.a}
	p, q = q, p
	println(p.a, p.b, q.a, q.b)

	values[show(1)], values[show(0)] = show(10), show(20)
	println()
	values[show(2)] = show(30) + values[show(1)]
	println()
	println(values[0], values[1], values[2], values[3])
	values[values[0]/10-1], values[0] = 3, 0
	println(values[0], values[1], values[2], values[3])
}
