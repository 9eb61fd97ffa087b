package main

const n = 3

type matrix struct {
	rows [n][n]int
}

func product(a, b [n][n]int) (c [n][n]int) {
	for i := range n {
		for j := range n {
			for k := range n {
				c[i][j] += a[i][k] * b[k][j]
			}
		}
	}
	return
}

func power(m matrix, exponent int) matrix {
	result := matrix{[n][n]int{{1}, {0, 1}, {0, 0, 1}}}
	for ; exponent > 0; exponent >>= 1 {
		if exponent&1 == 1 {
			result.rows = product(result.rows, m.rows)
		}
		m.rows = product(m.rows, m.rows)
	}
	return result
}

func show(rows [n][n]int) {
	for i := range n {
		row := rows[i]
		println(row[0], row[1], row[2])
	}
}

func trace(rows [n][n]int) (sum int) {
	for i := range n {
		sum += rows[i][i]
	}
	return
}

func main() {
	a := [n][n]int{{1, 2, 3}, {4, 5, 6}, {7, 8, 9}}
	turned := [n][n]int{{0, 1, 0}, {0, 0, 1}, {1, 0, 0}}
	show(product(a, turned))
	show(product(turned, a))
	println(product(a, turned) == product(turned, a), trace(product(a, turned)) == trace(product(turned, a)))
	println(product(turned, product(turned, turned)) == power(matrix{}, 0).rows)
	show(power(matrix{a}, 3).rows)
	println(power(matrix{turned}, 100) == matrix{turned}, power(matrix{a}, 1) == matrix{rows: a})
}
