package main

const most = 6

type factors struct {
	primes [most]int
	count  int
}

func squares(from int) [5]int {
	var result [5]int
	for i := range 5 {
		result[i] = (from + i) * (from + i)
	}
	return result
}

func factored(n int) (f factors) {
	for d := 2; d*d <= n; d++ {
		for n%d == 0 {
			f.primes[f.count] = d
			f.count++
			n /= d
		}
	}
	if n > 1 {
		f.primes[f.count] = n
		f.count++
	}
	return
}

func divided(a [5]int, by int) (quotients, rests [5]int) {
	for i := range 5 {
		quotients[i], rests[i] = a[i]/by, a[i]%by
	}
	return quotients, rests
}

func both(n int) ([5]int, [5]int) {
	return divided(squares(n), 10)
}

func reversed(a [5]int) [5]int {
	if a[0] < a[4] {
		return [5]int{a[4], a[3], a[2], a[1], a[0]}
	}
	return a
}

func rotations(a [5]int, n int) [5]int {
	if n == 0 {
		return a
	}
	return rotations([5]int{a[4], a[0], a[1], a[2], a[3]}, n-1)
}

func show(a [5]int) {
	println(a[0], a[1], a[2], a[3], a[4])
}

func main() {
	show(squares(8))
	show(reversed(squares(1)))
	show(reversed(reversed(squares(1))))
	tens, ones := both(7)
	show(tens)
	show(ones)
	show(rotations(ones, 7))
	println(rotations(ones, 5) == ones, rotations(ones, 1) == ones)
	for n := 60; n < 65; n++ {
		f := factored(n)
		print(n, ":")
		for i := range f.count {
			print(" ", f.primes[i])
		}
		println()
	}
	println(factored(97).count, factored(60) == factors{primes: [most]int{2, 2, 3, 5}, count: 4})
}
