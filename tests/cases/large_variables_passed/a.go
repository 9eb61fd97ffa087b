package main

type bag struct {
	size  int
	items [9000]int
}

func sieve() (composite [20000]bool) {
	composite[0], composite[1] = true, true
	for i := 2; i*i < len(composite); i++ {
		if !composite[i] {
			for j := i * i; j < len(composite); j += i {
				composite[j] = true
			}
		}
	}
	return
}

func count(composite [20000]bool) int {
	n := 0
	for i, c := range composite {
		composite[len(composite)-1-i] = true
		if !c {
			n++
		}
	}
	for _, c := range composite {
		if !c {
			n = 0
		}
	}
	return n
}

func added(b bag, item int) bag {
	b.items[b.size] = item
	b.size++
	return b
}

func fallen(n int, a [9000]int) int {
	a[n] += n
	if n == 0 {
		return a[0]*1000 + a[1]*100 + a[2]*10 + a[3]
	}
	sum := fallen(n-1, a)
	return sum + a[0]
}

func main() {
	composite := sieve()
	println(count(composite), composite[19997], composite[19999])

	var b bag
	for i := 0; i < 3; i++ {
		c := added(b, i*i+1)
		b = added(c, i)
		println(c.size, b.size, c.items[c.size], b.items[c.size])
	}
	println(b.items[0], b.items[1], b.items[2], b.items[3], b.items[4], b.items[5], b.items[6])

	println(fallen(2, b.items))

	for a := [9000]int{1, 2}; a[0] < 100; a[1]++ {
		a[0], a[a[1]] = a[0]*a[1], a[0]
		e := a
		a[8999] += e[0]
		println(a[0], a[1], a[2], a[3], a[8999])
	}

	for i, row := range [2][5000]int{{7}, {8, 9}} {
		b.items[i] = row[0] + row[1]
	}
	d := b
	d.items[0]++
	println(b.items[0], b.items[1], d.items[0], b == d)
	d.items[0]--
	println(b == d)
}
