package main

func main() {
	println(count, limit, ready, first, second, double)
	next()
	next()
	count += 10
	first, second = second, first
	println(count, first, second)
	for count = range 3 {
		print(count, " ")
	}
	count++
	ready = !ready && hidden(count)
	println(ready, steps, total)
}

var total, ready = limit*2 + 1, steps > 2

const steps = 1<<2 - 1

var (
	count  int
	_, _   = 1, true
	double bool = limit > 99
	first, second = -1, (steps)
)

func hidden(count int) bool {
	total := 3
	total = total + count
	return total == 6
}

func next() {
	count++
	total = total*10 + count
}

const limit = 100
