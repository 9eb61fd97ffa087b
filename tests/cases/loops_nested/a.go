package main

func main() {
	for i := 0; i < 3; i++ {
		for j := 0; ; j++ {
			if j > i {
				break
			}
			if j == 1 {
				continue
			}
			println(i, j)
		}
		if i == 1 {
			continue
		}
		println(i)
	}
	n := 0
	for n < 3 {
		n++
		for {
			if n == 2 {
				break
			}
			for range 2 {
				println(n)
				break
			}
			break
		}
		if n == 2 {
			continue
		}
		println(-n)
	}
}
