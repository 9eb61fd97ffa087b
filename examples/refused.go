package main

// The compiler refuses this text with 201: the name in the second line of main is not declared.
func main() {
	x := 1
	println(x, y)
}
