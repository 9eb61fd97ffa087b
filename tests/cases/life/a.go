package main

const size = 8

type world struct {
	cells      [size][size]bool
	generation int
}

func alive(cells [size][size]bool, row, column int) (count int) {
	for i := row - 1; i <= row+1; i++ {
		for j := column - 1; j <= column+1; j++ {
			if (i != row || j != column) && cells[(i+size)%size][(j+size)%size] {
				count++
			}
		}
	}
	return
}

func next(w world) world {
	old := w.cells
	for i := range size {
		for j := range size {
			n := alive(old, i, j)
			w.cells[i][j] = n == 3 || n == 2 && old[i][j]
		}
	}
	w.generation++
	return w
}

func show(w world) {
	println("generation", w.generation)
	for i := range size {
		for j := range size {
			if w.cells[i][j] {
				print("#")
			} else {
				print(".")
			}
		}
		println()
	}
}

func main() {
	var w world
	w.cells[0] = [size]bool{false, true}
	w.cells[1][2] = true
	w.cells[2] = [size]bool{true, true, true}
	first := w
	show(w)
	w = next(w)
	show(w)
	for w.generation < 4 {
		w = next(w)
	}
	show(w)
	for w.generation < 4*size {
		w = next(w)
	}
	println(w == first, w.cells == first.cells, w.generation, first.generation)
}
