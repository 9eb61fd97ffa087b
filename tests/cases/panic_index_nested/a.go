package main

type board struct {
	cells [2][3]int
	turns int
}

func at(b board, row, column int) int {
	return b.cells[row][column]
}

func main() {
	b := board{cells: [2][3]int{{1, 2, 3}, {4, 5, 6}}}
	for i := range 4 {
		print(at(b, 1, i), " ")
	}
	println()
}
