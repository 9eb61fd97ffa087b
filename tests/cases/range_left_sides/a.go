package main

type point struct {
	x, y int
}

type line struct {
	ends [2]point
	on   [2]bool
}

var calls int

func next() int {
	calls++
	return calls % 3
}

func main() {
	a := [3]int{5, 6, 7}
	p := point{}
	for p.x, p.y = range a {
	}
	println(p.x, p.y)
	b := [3]int{}
	for _, b[2] = range a {
		b[0] += b[2]
	}
	println(b[0], b[1], b[2])
	i := 0
	for i, b[i] = range a {
		println(i, b[0], b[1], b[2])
	}
	println(i, b[0], b[1], b[2])
	for b[next()] = range a {
		println(b[0], b[1], b[2])
	}
	for b[next()], b[next()] = range a {
		println(b[0], b[1], b[2], calls)
	}

	l := line{}
	ps := [2]point{{1, 2}, {3, 4}}
	for i, l.ends[1] = range ps {
		l.ends[i].y++
		println(l.ends[0].x, l.ends[0].y, l.ends[1].x, l.ends[1].y)
	}
	for i, l.on[0] = range [2]bool{true, false} {
		println(i, l.on[0], l.on[1])
	}
	m := [2][2]int{{1, 2}, {3, 4}}
	for i, m[1] = range m {
		m[0][0]++
		println(i, m[0][0], m[0][1], m[1][0], m[1][1])
	}
	for _, _ = range m {
		i++
	}
	for i, _ = range m {
	}
	for _, p = range ps {
		if p.x == 1 {
			continue
		}
		break
	}
	println(i, p.x, p.y)
}
