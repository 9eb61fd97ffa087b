package main

func exit(code int)

func main() {
	println("before")
	exit(3 + 4)
	println("after")
}
