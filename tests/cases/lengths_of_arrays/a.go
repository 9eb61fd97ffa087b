package main

// The length and the capacity of an array are constants of type int, and the array isn't evaluated.

type Board struct {
	cells [3][4]int
	moves int
}

var totals [5]int

func last(a [6]int) int { return a[len(a)-1] }

func average(a [6]int) int {
	sum := 0
	for i := 0; i < len(a); i++ {
		sum += a[i]
	}
	return sum / len(a)
}

func main() {
	var b Board
	println(len(b.cells), cap(b.cells), len(b.cells[0]), len(totals))

	// An index that would panic isn't worked out.
	i := 7
	println(len(b.cells[i]))

	a := [6]int{3, 1, 4, 1, 5, 9}
	println(last(a), average(a))

	// As a constant it shifts, divides, and is the index of an element.
	println(1<<len(a), -len(a)/4, len(a)%4, a[len(a)-2])

	// It counts loops.
	for row := 0; row < len(b.cells); row++ {
		for column := range len(b.cells[row]) {
			b.cells[row][column] = row * column
			b.moves++
		}
	}
	println(b.moves == len(b.cells)*len(b.cells[0]), b.cells[2][3])

	println(len([2]Board{b, b}), cap([3]bool{true}))

	// The names can stand for others.
	len := func1(cap(a))
	println(len)
}

func func1(cap int) int { return cap * 10 }
