package main

// Each call wants a frame of eight words. Try --max-stack 813, and 812.
func deep(n int) int {
	if n == 0 {
		return 0
	}
	return 1 + deep(n-1)
}

func main() {
	println(deep(100))
}
