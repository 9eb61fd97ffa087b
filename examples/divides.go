package main

func main() {
	for d := 2; d >= 0; d-- {
		println(100 / d)
	}
}
