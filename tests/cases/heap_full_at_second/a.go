package main

var a, b = 1, true
var c int

func main() {
	println(a, b, c)
}
