package main

func exit(int)

func main() {
	print("x")
	exit(126)
}
