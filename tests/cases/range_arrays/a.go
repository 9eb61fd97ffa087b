package main

type point struct {
	x, y int
}

type line struct {
	ends [2]point
	name int
}

var shared [4]int

func squares(n int) [5]int {
	println("squares", n)
	s := [5]int{}
	for i := range s {
		s[i] = (i + n) * (i + n)
	}
	return s
}

func sum(a [5]int) int {
	total := 0
	for _, v := range a {
		total += v
	}
	return total
}

func first(a [5]int, least int) (at, v int) {
	for at, v = range a {
		if v >= least {
			return
		}
	}
	return -1, 0
}

func length(l line) int {
	total := 0
	for _, p := range l.ends {
		total += p.x*p.x + p.y*p.y
	}
	return total
}

func main() {
	println(sum([5]int{1, 2, 3, 4, 5}), sum(squares(1)))
	at, v := first(squares(0), 5)
	println(at, v)
	at, v = first([5]int{}, 1)
	println(at, v)

	for i, v := range squares(2) {
		if i == 1 {
			continue
		}
		if v > 20 {
			break
		}
		println(i, v)
	}

	ps := [3]point{{1, 2}, {x: 3}, {}}
	total := point{}
	for i, p := range ps {
		total.x += p.x * i
		total.y += p.y + i
	}
	println(total.x, total.y)
	l := line{[2]point{{3, 4}, {1, 1}}, 7}
	println(length(l))
	for i, p := range l.ends {
		println(i, p.x, p.y)
	}

	table := [2][3]int{{1, 2, 3}, {4, 5, 6}}
	whole := 0
	for i, row := range table {
		for j, v := range row {
			whole = whole*10 + v
			table[1-i][j] = 0
		}
		row[0] = 9
	}
	println(whole, table[0][0], table[0][2], table[1][0], table[1][2])
	for i := range table {
		for j := range table[i] {
			table[i][j] += 3*i + j
		}
	}
	println(table[0][1], table[1][0], table[1][2])

	for i := range shared {
		shared[i] = 1 << i
	}
	count := 0
	for range shared {
		count++
	}
	for _ = range shared {
		count++
	}
	for i, _ := range shared {
		count += i
	}
	for _, v := range shared {
		count += v
	}
	println(count)
	for _, ok := range [3]bool{true, count == 0, count > 0} {
		println(ok)
	}
	one := [1][1]point{}
	for i, a := range one {
		for j, p := range a {
			println(i, j, p == point{}, a == one[0])
		}
	}
}
