package main

const true = 3

func len(int int) bool { return int == true }

func println(cap int) { print(cap, " ", len(cap), "\n") }

func main() {
	println(true)
	false := 1 > 2
	append, nil := 7, false
	for string, _ := range 2 {
		append += string
	}
	if nil {
		panic("unreachable")
	}
	println(append)
	{
		print := append
		print++
		println(print)
	}
}
