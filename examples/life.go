package main

const size = 6

type world struct {
	alive [size][size]bool
}

// How many of the eight cells around one are alive. The world has no edge: its opposite sides meet.
func around(w world, row, column int) (count int) {
	for i := row + size - 1; i <= row+size+1; i++ {
		for j := column + size - 1; j <= column+size+1; j++ {
			if w.alive[i%size][j%size] && (i != row+size || j != column+size) {
				count++
			}
		}
	}
	return
}

func next(w world) (v world) {
	for row := range size {
		for column := range size {
			n := around(w, row, column)
			v.alive[row][column] = n == 3 || n == 2 && w.alive[row][column]
		}
	}
	return
}

// Shows a glider three times, with four generations from each to the next.
func main() {
	glider := world{[size][size]bool{{false, true}, {false, false, true}, {true, true, true}}}
	var shown [3]world
	for i := range 3 {
		shown[i] = glider
		for range 4 {
			glider = next(glider)
		}
	}
	for row := range size {
		for i := range 3 {
			if i > 0 {
				print("  ")
			}
			for column := range size {
				if shown[i].alive[row][column] {
					print("#")
				} else {
					print(".")
				}
			}
		}
		println()
	}
}
