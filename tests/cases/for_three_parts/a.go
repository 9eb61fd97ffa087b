package main

func main() {
	for i := 0; i < 6; i++ {
		if i == 1 {
			continue
		}
		if i == 4 {
			break
		}
		println(i)
	}
	for i, j := 0, 10; i < j; i, j = i+1, j-2 {
		println(i, j)
	}
	for n := 10; n > 0; n -= 3 {
		if n&1 == 0 {
			continue
		}
		println(n)
	}
	for i := 0; i < 10; i++ {
		i += 2
		println(i)
	}
	for i := 0; i < 2; i++ {
		i := i*10 + 1
		println(i)
	}
}
