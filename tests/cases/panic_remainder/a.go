package main

func main() {
	for n := 2; ; n-- {
		println(7 % n)
	}
}
