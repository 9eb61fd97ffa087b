package main

func over(a, b int) int {
	return a / b
}

func main() {
	println(over(7, 2), over(-7, 2))
	print(8, 4)
	println(5, over(1, 0))
	println(9)
}
