package main

func main() {
	println("so far")
	panic("no \"way\"")
}
