package main

func readInt() (int, bool)

func main() {
	for range 6 {
		println(show(readInt()))
	}
}

func show(n int, ok bool) int {
	if ok {
		return n
	}
	return 1000
}
