package main

func main() {
	i := 0
	for ; i < 2; i++ {
		println(i)
	}
	for ; i < 4; {
		println(i)
		i++
	}
	for i = 7; ; i-- {
		if i < 6 {
			break
		}
		println(i)
	}
	for i = 1; i < 9; {
		println(i)
		i *= 3
	}
	for ; ; i++ {
		if i == 11 {
			break
		}
		println(i)
	}
	for ; ; {
		i--
		if i%4 == 0 {
			break
		}
	}
	println(i)
	for i > 6 {
		println(i)
		i--
	}
	for {
		if i == 5 {
			break
		}
		println(i)
		i--
	}
	for j := 3; j > 0; {
		println(j)
		j--
	}
}
