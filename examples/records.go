package main

const count = 4

type runner struct {
	number, minutes, seconds int
}

func time(r runner) int {
	return 60*r.minutes + r.seconds
}

// The fastest first. An array is passed as a copy, so that of the caller keeps its order.
func ranked(runners [count]runner) [count]runner {
	for i := range count {
		for j := i; j > 0 && time(runners[j]) < time(runners[j-1]); j-- {
			runners[j-1], runners[j] = runners[j], runners[j-1]
		}
	}
	return runners
}

func main() {
	runners := [count]runner{{7, 31, 5}, {number: 11, minutes: 29, seconds: 48}, {23, 30, 0}, {42, 29, 59}}
	ranks := ranked(runners)
	for i := range count {
		r := ranks[i]
		println(i+1, "number", r.number, "time", r.minutes, r.seconds)
	}
	println(runners[0].number, ranks[0].number, runners == ranks)
}
