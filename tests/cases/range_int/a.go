package main

func count() int {
	println(100)
	return 3
}

func main() {
	for i := range 3 {
		println(i)
	}
	for i := range 0 {
		println(i)
	}
	n := -2
	for i := range n {
		println(i)
	}
	for range 2 {
		println(7)
	}
	for range n {
		println(0)
	}
	for _ = range 1 {
		println(8)
	}
	k := 9
	for k = range 4 {
	}
	println(k)
	for k = range n {
	}
	println(k)
	for i := range count() {
		println(i)
	}
	n = 3
	for i := range n {
		n = 10
		println(i, n)
	}
	for i := range 3 {
		i += 10
		println(i)
	}
	for k = range 3 {
		k *= 5
		println(k)
	}
	println(k)
	for i := range 6 {
		if i == 1 {
			continue
		}
		if i == 4 {
			break
		}
		println(i)
	}
	for k = range 9 {
		if k == 5 {
			break
		}
	}
	println(k)
	for i := range 3 {
		for j := range i {
			println(i, j)
		}
	}
}
