package main

const k int = 5

const wide = 1 << 63

const yes bool = true

func main() {
	x := 1
	println(k+k, 1+k, k-7, x+k, -k)
	println(k<<2, 1<<k, k < 7, true && yes)
	println(1<<k<<60>>60, wide<<k>>64, wide/2)
}
