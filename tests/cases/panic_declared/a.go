package main

func panic(x int) {}

func f() int {
	panic(1)
}

func main() { println(f()) }
