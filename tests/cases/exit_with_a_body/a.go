package main

func exit(code int) int { return code + 1 }

func main() {
	println(exit(200))
}
