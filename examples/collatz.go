package main

// How many steps lead from n to 1: half of an even number, one more than three times an odd one.
func steps(n int) (count int) {
	for n != 1 {
		if n%2 == 0 {
			n /= 2
		} else {
			n = 3*n + 1
		}
		count++
	}
	return
}

func main() {
	best, most := 1, 0
	for n := 1; n < 30; n++ {
		if count := steps(n); count > most {
			best, most = n, count
		}
	}
	println(best, most)
}
