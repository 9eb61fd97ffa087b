package main

func first(n int) int {
	for {
		if n%7 == 0 {
			return n
		}
		n++
	}
}

func root(n int) int {
	for i := 0; ; i++ {
		for {
			if i*i >= n {
				return i
			}
			break
		}
	}
}

func find(n int) (at int, found bool) {
	for at = range n {
		for i := 2; i < 5; i++ {
			if at*i == 12 {
				found = true
				return
			}
		}
	}
	return -1, false
}

func main() {
	println(first(15), first(-3), root(17), root(16), root(0))
	at, found := find(10)
	println(at, found)
	at, found = find(3)
	println(at, found)
	for i := 0; ; i++ {
		if i == 2 {
			return
		}
		println(i)
	}
}
