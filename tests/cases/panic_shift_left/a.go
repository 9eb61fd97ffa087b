package main

func main() {
	n := 2
	for {
		println(1 << n)
		n--
	}
}
