package main

func main() {
	x := 1
	{
		x := x + 1
		println(x)
		x = 7
	}
	println(x)
}
