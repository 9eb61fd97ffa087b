package main

func used(n int) bool {
	var a [20000]bool
	a[n] = true
	return a[n] && !a[n+1]
}

func main() {
	for i := 0; i < 3; i++ {
		println(i, used(i))
	}
}
