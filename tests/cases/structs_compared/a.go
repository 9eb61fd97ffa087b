package main

type point struct {
	x, y int
}

type figure struct {
	corners [3]point
	filled  bool
}

var unit = 1

var seen int

func corner(x, y int) point {
	seen++
	return point{x, y}
}

func main() {
	p, q := point{1, 2}, point{y: 2, x: 1}
	println(p == q, p != q, p == point{2, 1}, point{} == point{0, 0})
	q.y++
	println(p == q, p != q)

	a := figure{corners: [3]point{{0, 0}, {1, 0}, {0, unit}}}
	b := a
	println(a == b, a.corners == b.corners, a.corners[1] == b.corners[2])
	b.filled = !b.filled
	println(a == b, a.corners == b.corners)
	b.filled = a.filled
	b.corners[2].y--
	println(a == b, a.corners == b.corners, a.filled == b.filled)
	b.corners[2] = corner(0, 1)
	println(a == b)

	println([2]bool{true} == [2]bool{true, false}, [2]int{1, 2} != [2]int{1, 2}, [1]int{5} == [1]int{unit + 4})
	println(corner(1, 2) == corner(1, 2), corner(1, 2) == p && p != q, p != p || corner(3, 3) == corner(3, 4))
	println(false && corner(1, 1) == p, seen)
	if (p == point{1, 2}) != (p == q) {
		println("told apart")
	}
	for i := 0; (point{i, 2 * i}) != (point{3, 6}); i++ {
		print(i, " ")
	}
	println()
}
