package main

// An int has 64 bits: what a program adds up wraps. A constant expression is worked out exactly, before the program runs.
func main() {
	greatest := 9223372036854775807
	least := -9223372036854775808
	println(greatest+1, least-1, -least)
	println(9223372036854775807 - 9223372036854775808 + 1)
}
