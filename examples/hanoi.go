package main

// Moves n discs from one rod to another, and counts the moves.
func hanoi(n, from, to, over int) (moves int) {
	if n == 0 {
		return
	}
	before := hanoi(n-1, from, over, to)
	if n > 2 {
		println(n, from, to)
	}
	return before + 1 + hanoi(n-1, over, to, from)
}

func main() {
	println(hanoi(4, 1, 3, 2))
}
