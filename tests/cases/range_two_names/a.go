package main

func main() {
	for i, j := range 3 {
		println(i, j)
	}
}
