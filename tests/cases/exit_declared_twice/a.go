package main

func exit(code int)

func exit(n int)

func main() {
	exit(0)
}
