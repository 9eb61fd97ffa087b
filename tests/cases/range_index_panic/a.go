package main

func main() {
	a := [3]int{1, 2, 3}
	at := 0
	for at, a[at*3] = range a {
		println(at, a[0], a[2])
	}
}
