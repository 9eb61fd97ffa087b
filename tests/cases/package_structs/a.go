package main

func main() {
	println(limits.low, limits.high, table[2][1], here == cell{}, last)
	limits = bounds{-1, size}
	for i := range size {
		for j := range 2 {
			table[i][j] = clamped(i*i - 2*j)
		}
	}
	println(table[0][0], table[0][1], table[1][0], table[1][1], table[2][0], table[2][1])
	rows := table
	table[0] = [2]int{7, 8}
	table[1], table[2] = table[2], table[0]
	println(rows[0][0], rows[0][1], table[0][0], table[1][0], table[2][1])
	visit(cell{1, bounds{2, 3}})
	visit(cell{number: 4})
	visit(here)
	println(count, last, here.number, here.within.low, here.within.high)
	visits[count-1].within.high, count = 10, 0
	visits[count].number += 5
	println(visits[0].number, visits[1].number, visits[2].within.high, visits[3] == cell{}, count)
	limits := limits
	limits.low = 50
	println(limits.low, low())
}

var table [size][2]int

var (
	count, last int
	visits      [size + 1]cell
	here        cell
)

type cell struct {
	number int
	within bounds
}

func visit(c cell) {
	visits[count] = c
	last, here = visits[count].number, c
	count++
}

func clamped(n int) int {
	if n < limits.low {
		return limits.low
	}
	if n > limits.high {
		return limits.high
	}
	return n
}

func low() int {
	return limits.low
}

var limits bounds

type bounds struct {
	low, high int
}

const size = 3
