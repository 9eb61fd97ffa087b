package main

func main() {
	x := -3
	for x != 3 {
		if x < 0 {
			println(x, -1)
		} else if x == 0 {
			println(x, 0)
		} else {
			println(x, 1)
		}
		x = x + 1
	}
	if x >= 3 {
		println(x)
	}
	if x > 3 {
		println(0)
	}
}
