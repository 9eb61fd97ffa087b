package main

func down(n int) {
	if n > 0 {
		down(n - 1)
	}
}

func main() {
	down(10)
	println(1)
}
