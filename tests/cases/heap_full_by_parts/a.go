package main

type point struct {
	x, y int
}

var p point

func main() {
	println(p.x, ends[1].y, on)
}

var ends [2]point

var on bool
