package main

func main() {
	x, zero := 7, 0
	x /= 2
	println(x)
	x %= zero
	println(x)
}
