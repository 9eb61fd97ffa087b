package main

var table [2][3]int

func value(n int) int {
	print(n, " ")
	return n
}

func main() {
	table[value(1)][value(2)] += value(40)
	println(table[1][2])
	table[value(0)][value(0)], table[value(2)][value(3)] = value(50), value(60)
	println("not reached")
}
