package main

type counter struct {
	hits, misses int
	full         bool
}

type page struct {
	counters [3]counter
	bits     [2][2]int
}

var total page

var calls int

func next() int {
	calls++
	return calls
}

func show(p page) {
	for i := range 3 {
		print(p.counters[i].hits, "/", p.counters[i].misses, " ")
	}
	println(p.bits[0][0], p.bits[0][1], p.bits[1][0], p.bits[1][1])
}

func main() {
	var p page
	p.counters[0].hits += 5
	p.counters[1].misses -= 3
	p.counters[2].hits++
	p.counters[2].hits++
	p.counters[2].misses--
	show(p)

	p.bits[0][0] |= 12
	p.bits[0][1] ^= -1
	p.bits[1][0] += 7
	p.bits[1][1]--
	p.bits[0][0] &= 10
	p.bits[0][1] <<= 4
	p.bits[1][0] *= p.bits[1][0]
	p.bits[1][1] >>= 1
	show(p)
	p.bits[0][0] &^= 8
	p.bits[0][1] /= 3
	p.bits[1][0] %= 10
	show(p)

	i := 2
	p.counters[i].hits -= i
	p.counters[i-1].misses *= p.counters[i-2].hits
	i--
	p.bits[i][i] += i
	p.bits[i][p.bits[i][i]] = 40
	show(p)

	total = p
	total.counters[next()].hits += 100
	total.counters[next()].hits += 100 * next()
	total.bits[calls-2][calls-3]++
	show(total)
	show(p)
	for i := range 3 {
		total.counters[i].full = total.counters[i].hits > 100
	}
	println(total.counters[0].full, total.counters[1].full, total.counters[2].full, calls)
	for p.bits[0][0] = 0; p.bits[0][0] < 3; p.bits[0][0]++ {
		p.counters[p.bits[0][0]] = counter{misses: p.bits[0][0]}
	}
	for p.bits[1][0] = range 4 {
	}
	show(p)
}
