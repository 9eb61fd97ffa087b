package main

func divide(n, d int) (quotient, rest int) {
	for n >= d {
		n, quotient = n-d, quotient+1
	}
	rest = n
	return
}

func main() {
	a, b := divide(1000, 7)
	println(a, b)
	a, b = b, a
	println(a, b)
}
