package main

const limit = 20

// The calls of fib so far, and the deepest one.
var calls, depth, deepest int

func fib(n int) int {
	calls++
	depth++
	if depth > deepest {
		deepest = depth
	}
	result := n
	if n > 1 {
		result = fib(n-1) + fib(n-2)
	}
	depth--
	return result
}

func main() {
	println(fib(limit), "calls", calls, "deepest", deepest)
}
