package main

func readInt() (int, bool)

func main() {
	println(readInt())
}
