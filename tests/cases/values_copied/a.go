package main

type point struct {
	x, y int
}

type line struct {
	ends [2]point
	name int
}

var origin point

func moved(p point, by int) point {
	p.x += by
	p.y += by
	return p
}

func cleared(l line) line {
	l.ends = [2]point{}
	l.name = 0
	return l
}

func replaced(ends [2]point, p point) [2]point {
	ends[1] = p
	return ends
}

func show(l line) {
	println(l.ends[0].x, l.ends[0].y, l.ends[1].x, l.ends[1].y, l.name)
}

func main() {
	p := point{1, 2}
	q := p
	q.x = 10
	println(p.x, p.y, q.x, q.y)
	r := moved(p, 5)
	println(p.x, p.y, r.x, r.y)

	l := line{[2]point{p, q}, 7}
	p.y = 99
	m := l
	m.ends[0] = r
	m.name++
	show(l)
	show(m)
	show(cleared(m))
	show(m)

	ends := replaced(l.ends, origin)
	ends[0].y = -1
	show(l)
	println(ends[0].x, ends[0].y, ends[1].x, ends[1].y)

	lines := [2]line{l, m}
	copied := lines
	lines[0], lines[1] = lines[1], lines[0]
	copied[1].ends[1] = origin
	show(lines[0])
	show(lines[1])
	show(copied[0])
	show(copied[1])

	origin = moved(origin, 3)
	at := origin
	origin.x = 0
	println(origin.x, origin.y, at.x, at.y)

	rounds := [3]int{}
	for i := 0; i < 3; i++ {
		kept := rounds
		rounds[i] = i + 1
		println(kept[0], kept[1], kept[2], kept == rounds)
	}
	whole := [2][2]int{{1, 2}, {3, 4}}
	row := whole[0]
	whole[0] = whole[1]
	whole[1] = row
	row[0] = 5
	println(whole[0][0], whole[0][1], whole[1][0], whole[1][1], row[0])
}
