package main

func total(week [7]int) int {
	sum := 0
	for _, amount := range week {
		sum += amount
	}
	return sum
}

func wettest(weeks [3][7]int) (week, day int) {
	for w, days := range weeks {
		for d, amount := range days {
			if amount > weeks[week][day] {
				week, day = w, d
			}
		}
	}
	return week, day
}

func main() {
	weeks := [3][7]int{{0, 2, 7, 0, 0, 1, 0}, {4, 0, 0, 12, 3}, {0, 0, 5, 5, 0, 9, 1}}
	for i, week := range weeks {
		println("week", i+1, "total", total(week), "a day", total(week)/len(week))
	}
	week, day := wettest(weeks)
	println("wettest: week", week+1, "day", day+1, "of", len(weeks)*len(weeks[0]))

	// The loop goes over a copy of the week, so turning the week round under it loses nothing.
	for i, amount := range weeks[0] {
		weeks[0][len(weeks[0])-1-i] = amount
	}
	println("backwards:", weeks[0][1], weeks[0][4], weeks[0][5])
}
