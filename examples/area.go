package main

func main() {
	width := 1920
	height := 1080
	pixels := width * height
	println(width, height, pixels)
	println(pixels-2000000, -(width-height)*2)
}
