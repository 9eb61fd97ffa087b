package main

func left(x int) {
	most := 9223372036854775807
	n := 0
	println(x<<n, x<<1, x<<63, x<<64, x<<100, x<<most)
}

func right(x int) {
	most := 9223372036854775807
	n := 0
	println(x>>n, x>>1, x>>62, x>>63, x>>64, x>>100, x>>most)
}

func main() {
	left(5)
	left(-6)
	left(9223372036854775807)
	left(-9223372036854775808)
	right(5)
	right(-6)
	right(9223372036854775807)
	right(-9223372036854775808)
	n := 64
	x := -5
	println(x>>n, 1<<n, 7>>1, 1<<(n-1), -1>>n)
}
