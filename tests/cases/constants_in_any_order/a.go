package main

const (
	area        = width * height
	width, deep = 1<<5 - 1, area > 900
)

func main() {
	println(area, deep, small, -small)
	println(wide>>100, limit)
	x := 1
	println(x<<shift, limit/x)
}

const height = width + 1

const small int = area / height - 1

const wide, shift = 7 << 100, 3

const limit int = 1<<63 - 1
