package main

const count = 7

type date struct {
	year, month, day int
}

type entry struct {
	number int
	born   date
	active bool
}

var entries [count]entry

var used int

func add(number, year, month, day int, active bool) {
	entries[used] = entry{number, date{year, month, day}, active}
	used++
}

func before(a, b date) bool {
	if a.year != b.year {
		return a.year < b.year
	}
	if a.month != b.month {
		return a.month < b.month
	}
	return a.day < b.day
}

// Entries of one date keep their order.
func sorted(es [count]entry) [count]entry {
	for i := 1; i < count; i++ {
		for j := i; j > 0 && before(es[j].born, es[j-1].born); j-- {
			es[j-1], es[j] = es[j], es[j-1]
		}
	}
	return es
}

func show(es [count]entry) {
	for i := range count {
		print(es[i].number)
		if es[i].active {
			print("*")
		}
		print(" ")
	}
	println()
}

func main() {
	add(1, 1990, 5, 17, true)
	add(2, 1985, 12, 1, false)
	add(3, 1990, 5, 2, true)
	add(4, 1985, 12, 1, true)
	add(5, 2001, 1, 31, false)
	add(6, 1990, 4, 30, false)
	add(7, 1985, 1, 1, true)
	byDate := sorted(entries)
	show(byDate)
	show(entries)
	println(byDate == entries, sorted(byDate) == byDate)
	oldest := byDate[0].born
	println(oldest.year, oldest.month, oldest.day)
	for i := range count {
		for j := count - 1; j > i; j-- {
			if entries[j-1].active && !entries[j].active {
				entries[j-1], entries[j] = entries[j], entries[j-1]
			}
		}
	}
	show(entries)
}
