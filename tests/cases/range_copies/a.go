package main

type cell struct {
	v, next int
}

var steps [3]int

func changed() [3]int {
	steps[0]++
	return steps
}

func main() {
	a := [4]int{1, 2, 3, 4}
	for i, v := range a {
		a[3-i] = v * 10
		v++
		println(i, v, a[i])
	}
	println(a[0], a[1], a[2], a[3])

	b := [4]int{1, 2, 3, 4}
	for i := range b {
		if i > 0 {
			b[i] += b[i-1]
		}
	}
	println(b[0], b[1], b[2], b[3])

	c := [3]cell{{1, 2}, {2, 0}, {3, 1}}
	for i, e := range c {
		c[e.next].v += e.v
		e.v = 100
		println(i, e.v, c[i].v)
	}
	println(c[0].v, c[1].v, c[2].v)

	for i, v := range changed() {
		steps[i] += v + 1
		println(i, v, steps[0], steps[1], steps[2])
	}
	for i, v := range steps {
		steps[2] = i
		println(v, steps[2])
	}

	n := 2
	for i, row := range [2][2]int{{n, n + 1}, {n + 2, n + 3}} {
		n = i
		row[i] = n * n
		println(row[0], row[1], n)
	}

	d := [3]int{7, 8, 9}
	for i, d := range d {
		i := i*100 + d
		d = 1
		println(i, d)
	}
	println(d[0], d[1], d[2])

	kept := [2][3]int{}
	for i := range kept {
		for j, v := range d {
			kept[i][j] = v + i
			d = [3]int{v, v, v}
		}
	}
	println(kept[0][0], kept[0][1], kept[0][2], kept[1][0], kept[1][1], kept[1][2])
}
