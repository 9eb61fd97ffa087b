package main

const size = 2

type matrix struct {
	rows [size][size]int
}

func product(a, b matrix) (c matrix) {
	for i := range size {
		for j := range size {
			for k := range size {
				c.rows[i][j] += a.rows[i][k] * b.rows[k][j]
			}
		}
	}
	return
}

// The powers of a matrix hold the Fibonacci numbers.
func main() {
	step := matrix{[size][size]int{{1, 1}, {1, 0}}}
	power := matrix{[size][size]int{{1, 0}, {0, 1}}}
	for n := range 91 {
		if n%30 == 0 {
			println(n, power.rows[0][1])
		}
		power = product(power, step)
	}
}
