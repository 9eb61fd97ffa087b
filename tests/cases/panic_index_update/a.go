package main

type queue struct {
	items [4]int
	first int
}

func main() {
	q := queue{first: 2}
	for i := 1; ; i *= 2 {
		q.items[q.first] += i
		q.items[q.first]++
		println(q.items[q.first])
		q.first++
	}
}
