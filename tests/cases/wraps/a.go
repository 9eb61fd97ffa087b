package main
func main() { x := 9223372036854775807; println(x + 1, -x-2) }
