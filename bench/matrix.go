package main

const size = 60

var a, b, c [size][size]int

func multiply() {
	for i := range size {
		for j := range size {
			sum := 0
			for k := range size {
				sum += a[i][k] * b[k][j]
			}
			c[i][j] = sum % 1000
		}
	}
}

func main() {
	for i := range size {
		for j := range size {
			a[i][j] = i + j
			b[i][j] = (i*i + 3*j + 1) % 7
		}
	}
	for range 10 {
		multiply()
		a = c
	}
	println(c[1][2])
}
