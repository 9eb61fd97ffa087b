package main

func readInt() (int, bool)

func main() {
	readInt()
	n, good := readInt()
	println(n, good)
	_, good = readInt()
	println(good)
}
