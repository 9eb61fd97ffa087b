package main

func readInt() (int, bool)

func again(n int) {
	println(n)
	main()
}

func main() {
	n, good := readInt()
	if good {
		again(n)
	}
}
