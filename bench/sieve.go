package main

const limit = 60000

var composite [limit]bool

func primes() int {
	count := 0
	for n := range limit {
		composite[n] = n < 2
	}
	for n := range limit {
		if !composite[n] {
			count++
			for m := n * n; m < limit; m += n {
				composite[m] = true
			}
		}
	}
	return count
}

func main() {
	for range 20 {
		println(primes())
	}
}
